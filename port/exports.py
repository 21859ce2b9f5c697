"""The exported functions: what C passes, and the functions that make Rust's references of it."""
import re
from dataclasses import dataclass

from scanner import Refused, closing, is_code, joined, neighbour, text_at

# What begins an exported function in the sources.
MARK = ["#", "[", "unsafe", "(", "no_mangle", ")", "]", "pub", "extern", '"C"', "fn"]

C_NUMBERS = {"u8": "uint8_t", "u16": "uint16_t", "u32": "uint32_t", "u64": "uint64_t"}

# A usize has 64 bits where the library is proved. Where it has fewer, two exports could meet a number that it does not hold. They begin
# with these lines, which change nothing where it has 64:
# - the server takes `used` as a usize; one that is too large for it is above store_len, which the header answers with 22;
# - settled added the wait to `position` as a usize, and adds them as a u64 today; a position above the last one is out of range, and so is 0,
#   which is taken for it.
SHORT_USIZE = {
    "kozbrax_server": ["if used > usize::MAX as u64 {", "    return Served { code: 22, answer: 0, used };", "}"],
    "kozbrax_settled": ["let position = if usize::BITS < 64 && position > 1048576 { 0 } else { position };"],
}


@dataclass(frozen=True)
class Parameter:
    """A parameter: in Rust's exported function, in C, and how the Rattle function's argument is made of it."""

    rust: str
    c: tuple
    argument: str


@dataclass(frozen=True)
class Export:
    name: str
    parameters: list
    result: str


def parameter(name, kind, where):
    """A slice is a pointer and a length, an array a pointer, a number itself."""
    if kind in C_NUMBERS:
        return Parameter(f"{name}: {kind}", ((C_NUMBERS[kind], name),), name)
    found = re.fullmatch(r"&(mut)?\[(\w+)(?:;(\d+))?\]", kind)
    if not found or found.group(2) not in C_NUMBERS:
        raise Refused(f"{where}: the parameter '{name}: {kind}' of an export is not known")
    mutable, element, count = found.groups()
    pointer = "*mut" if mutable else "*const"
    c = ("" if mutable else "const ") + C_NUMBERS[element] + "*"
    if count:
        argument = f"unsafe {{ &{'mut ' if mutable else ''}*{name} }}"
        return Parameter(f"{name}: {pointer} [{element}; {count}]", ((c, name),), argument)
    length = f"{name}_len"
    slices = "core::slice::from_raw_parts" + ("_mut" if mutable else "")
    argument = f"unsafe {{ {slices}({name}, {length}) }}"
    return Parameter(f"{name}: {pointer} {element}, {length}: usize", ((c, name), ("size_t", length)), argument)


def parameters_of(tokens):
    """The names and types between the parentheses, without blanks in types."""
    text = joined([token for token in tokens if is_code(token)])
    # `&mut[u8]`: the blank behind `mut` went with the others, and no type of an export has another one.
    pairs = [part.partition(":") for part in re.split(r",(?![^\[]*\])", text) if part]
    return [(name, kind) for name, _, kind in pairs]


def export_at(tokens, i, where):
    """The export whose name is at place i."""
    where = f"{where}:{tokens[i].line}"
    name, opening = tokens[i].text, neighbour(tokens, i, 1)
    if text_at(tokens, opening) != "(":
        raise Refused(f"{where}: the export {name} has no parentheses behind its name")
    end = closing(tokens, opening, where)
    pairs = parameters_of(tokens[opening + 1:end])
    arrow = neighbour(tokens, end, 1)
    kind = neighbour(tokens, arrow, 1)
    body = neighbour(tokens, kind, 1)
    if text_at(tokens, arrow) != "->" or tokens[kind].kind != "word" or text_at(tokens, body) != "{":
        raise Refused(f"{where}: the export {name} has no result that is one word")
    if name not in SHORT_USIZE and any(its_kind == "u64" for _, its_kind in pairs):
        raise Refused(f"{where}: the export {name} takes a number of 64 bits, and SHORT_USIZE does not say what becomes of it")
    return Export(name, [parameter(*pair, where) for pair in pairs], tokens[kind].text)


def places_of_export(tokens, i):
    """The places of an export's mark and name, where the tokens of code from place i on begin one; else none."""
    places = []
    for text in MARK:
        if i is None or i >= len(tokens) or tokens[i].text != text:
            return None
        places.append(i)
        i = neighbour(tokens, i, 1)
    return places + [i]


def taken_out(tokens, where):
    """The tokens with each export as a plain `pub fn`, and the exports."""
    kept, found, skipped = [], [], set()
    for i, token in enumerate(tokens):
        places = places_of_export(tokens, i) if token.text == "#" else None
        if places:
            # `#[unsafe(no_mangle)]` and the blank behind it, and `extern "C"` with theirs, go; `pub fn` stays.
            public, extern, name = MARK.index("pub"), MARK.index("extern"), len(MARK)
            skipped.update(range(i, places[public]))
            skipped.update(range(places[extern], places[name - 1]))
            found.append(export_at(tokens, places[name], where))
        if i not in skipped:
            kept.append(token)
    return kept, found


def exported_module(found):
    """A module with the functions that C calls, to stand at the end of the source whose exports they are."""
    lines = ["", "// What C calls: each makes slices and arrays of the pointers that include/kozbrax.h names.", "pub mod exported {"]
    structs = sorted({export.result for export in found} - set(C_NUMBERS))
    lines += [f"    use super::{name};" for name in structs]
    for export in found:
        lines += ["", "    #[no_mangle]", f'    pub unsafe extern "C" fn {export.name}(']
        lines += [f"        {parameter.rust}," for parameter in export.parameters]
        lines += [f"    ) -> {export.result} {{"]
        lines += [f"        {line}" for line in SHORT_USIZE.get(export.name, [])]
        lines += [f"        super::{export.name}("]
        lines += [f"            {parameter.argument}," for parameter in export.parameters]
        lines += ["        )", "    }"]
    return "\n".join(lines + ["}", ""])


def c_result(kind):
    """The result's type in the header: a number, or kozbrax_ and the struct's words."""
    return C_NUMBERS.get(kind) or "kozbrax_" + re.sub(r"(?<!^)(?=[A-Z])", "_", kind).lower()


def prototypes(header):
    """The functions of the header: for each name the result's type, and type and name of each parameter."""
    text = re.sub(r"/\*.*?\*/", " ", header, flags=re.DOTALL)
    found = {}
    for result, name, listed in re.findall(r"(\w+) (kozbrax_\w+)\(([^)]*)\);", text):
        parts = [re.fullmatch(r"\s*((?:const )?\w+ \*?)(\w+)\s*", part) for part in listed.split(",")]
        if not all(parts):
            raise Refused(f"include/kozbrax.h: the parameters of {name} are not known")
        found[name] = (result, [(part.group(1).replace(" *", "*").strip(), part.group(2)) for part in parts])
    return found


def compare_with_header(found, header):
    """Refuses where the exports are not the header's functions with its parameters, in its order."""
    expected = prototypes(header)
    ours = {
        export.name: (c_result(export.result), [pair for parameter in export.parameters for pair in parameter.c])
        for export in found
    }
    for name in sorted(set(ours) | set(expected)):
        if ours.get(name) != expected.get(name):
            raise Refused(f"include/kozbrax.h has {name} as {expected.get(name)}, the source as {ours.get(name)}")
