#!/usr/bin/env python3
"""Writes the library's Rattle sources as a workspace of no_std Rust crates, for processors other than x86-64. See README.md.

    python3 port/no_std.py [FOLDER]    # where none is named: target/port of the repository

Contracts (`requires`, `ensures`), ghost lines, `#[derive(Drop)]`, the bound `Drop` and the line `#![tactic(auto)]` go. What changes besides is in `rewritten`,
in older.py for compilers from rustc 1.63 on, and in exports.py for the exported functions; everything else is copied as it stands. The script stops where it meets a
form that it does not know.
"""
import re
import shutil
import sys
from pathlib import Path

import exports
import older
from scanner import Refused, Token, closing, is_code, joined, neighbour, scan, text_at

ROOT = Path(__file__).resolve().parent.parent
LIBRARY = "kozbrax"

# The keywords that the sources may have outside ghost text. Every other keyword of Rust, and every word that could begin a ghost
# form, is refused.
KEYWORDS = set(
    "as const crate else enum extern false fn for if impl in let match mod mut pub ref return self static struct super true type use while".split()
)
REFUSED_WORDS = set(
    "abstract assert assume async await become box break continue decreases do dyn final ghost invariant lemma loop macro"
    " measure move override priv proof prove trait try typeof unsafe unsized variant virtual where yield".split()
)
ATTRIBUTES = ["#[repr(C)]", "#[derive(Clone,Copy)]", "#[derive(Clone,Copy,PartialEq,Eq)]", "#[inline(never)]"]
# Rattle's own: that a value may be dropped, as every value may in Rust; and the same as a bound of a type parameter.
DROP = "#[derive(Drop)]\n"
DROP_BOUND = "<T: Drop>"

U32_MAX = 2**32 - 1

HEAD = "// Written by port/no_std.py from crates/{crate}/src/{source}: change it there.\n"
# Some parameters and imports are there for contracts alone.
NO_STD = "#![no_std]\n#![allow(unused_imports, unused_variables)]\n"
SAFE = "#![forbid(unsafe_code)]\n"
EXPORTING = "#![deny(unsafe_op_in_unsafe_fn)]\n"

# A panic would be a difference from what is proved: the processor stops at an instruction that it does not know, or in a loop.
PANIC_HANDLER = """
#[panic_handler]
fn stop(_: &core::panic::PanicInfo) -> ! {
    #[cfg(any(target_arch = "x86", target_arch = "x86_64"))]
    unsafe {
        core::arch::asm!("ud2", options(noreturn))
    }
    #[cfg(any(target_arch = "arm", target_arch = "aarch64"))]
    unsafe {
        core::arch::asm!("udf #0", options(noreturn))
    }
    #[cfg(not(any(target_arch = "x86", target_arch = "x86_64", target_arch = "arm", target_arch = "aarch64")))]
    loop {}
}
"""

WORKSPACE = """# Written by port/no_std.py.
[workspace]
resolver = "2"
members = [{members}]

# Rattle proves that no operation overflows and that each index is in range; here both are checked as well, and a panic stops.
[profile.release]
overflow-checks = true
panic = "abort"
lto = true
codegen-units = 1
"""

PACKAGE = """# Written by port/no_std.py.
[package]
name = "{name}"
version = "0.1.0"
edition = "2021"
publish = false

[lib]
crate-type = ["{kind}"]

[dependencies]
"""


def needed_crates():
    """The library and the crates that it needs, directly or not, each with its dependencies, in the order of crates.txt."""
    listed = {}
    for line in (ROOT / "crates.txt").read_text().splitlines():
        line = line.partition("#")[0].strip()
        if line:
            name, _, needed = line.partition(":")
            listed[name.split()[0]] = needed.split()
    wanted, found = [LIBRARY], set()
    while wanted:
        name = wanted.pop()
        if name not in listed:
            raise Refused(f"crates.txt: the crate {name} is needed and not listed")
        if name not in found:
            found.add(name)
            wanted += listed[name]
    return {name: needed for name, needed in listed.items() if name in found}


def without_ghost_text(tokens, where):
    """The tokens without ghost uses, tactics and contracts. Contracts stand between a function's head and its body, nowhere else."""
    kept = []
    for i, token in enumerate(tokens):
        if token.kind == "contract":
            before, behind = neighbour(tokens, i, -1), neighbour(tokens, i, 1)
            head_ends = before is not None and (tokens[before].kind in ("contract", "word") or text_at(tokens, before) in (")", "]", ">", ">>"))
            body_begins = behind is not None and (tokens[behind].kind == "contract" or text_at(tokens, behind) == "{")
            if not head_ends or not body_begins:
                raise Refused(f"{where}:{token.line}: a contract that is not between a function's head and its body")
            # The blanks before it go with it.
            if kept and kept[-1].kind == "blank":
                kept.pop()
        elif token.kind not in ("ghost_line", "tactic"):
            kept.append(token)
    return kept


def check_forms(tokens, where):
    """Refuses words, attributes, macros and `extern` that are not known. The exports' own are out of the tokens by now."""
    for i, token in enumerate(tokens):
        at = f"{where}:{token.line}"
        behind = neighbour(tokens, i, 1)
        if token.kind == "word" and (token.text in REFUSED_WORDS or token.text == "extern"):
            raise Refused(f"{at}: the word '{token.text}' is not known in a source of the library")
        if token.kind == "word" and token.text == "std":
            raise Refused(f"{at}: a use of std, which no_std crates have not")
        if token.kind == "word" and token.text not in KEYWORDS and text_at(tokens, behind) == "!":
            raise Refused(f"{at}: the macro '{token.text}!' is not known")
        if token.text == "#" and token.kind == "symbol":
            attribute = joined([part for part in tokens[i:closing(tokens, behind, where) + 1] if is_code(part)])
            if attribute not in ATTRIBUTES:
                raise Refused(f"{at}: the attribute {attribute} is not known")


def value_of(number, where):
    """The value of a whole number's token, whose type may stand behind it."""
    found = re.fullmatch(r"(0x[0-9a-fA-F_]+|[0-9_]+)([ui](?:8|16|32|64|size))?", number)
    if not found:
        raise Refused(f"{where}: the number {number} is not known")
    return int(found.group(1).replace("_", ""), 0)


def inserted(tokens, where):
    """What is put in before a token, by its place.

    A number above 32 bits that a usize is divided by would not be a usize where that has 32 bits: the other side is taken as a u64, which
    every unsigned number fits.
    """
    before = {}
    for i, token in enumerate(tokens):
        at, previous = f"{where}:{token.line}", neighbour(tokens, i, -1)
        if token.kind == "number" and value_of(token.text, at) > U32_MAX:
            if text_at(tokens, previous) not in ("%", "/"):
                raise Refused(f"{at}: the number {token.text} has more than 32 bits, and nothing is divided by it")
            before[previous] = "as u64 "
    return before


def rewritten(source, crate):
    """A source as Rust, and the exports in it."""
    where = str(source.relative_to(ROOT))
    tokens = without_ghost_text(scan(source.read_text().replace(DROP, "").replace(DROP_BOUND, "<T>"), where), where)
    found = []
    if crate == LIBRARY:
        tokens, found = exports.taken_out(tokens, where)
    check_forms(tokens, where)
    tokens, renamed = older.with_older_functions(tokens)
    before = inserted(tokens, where)
    tokens = [Token(token.kind, before.get(i, "") + token.text, token.line) for i, token in enumerate(tokens)]
    # The last of all, since it writes a value and a block as one token, into which nothing looks.
    text = joined(older.without_let_else(tokens, where))
    return text + (older.USE if renamed else "") + (exports.exported_module(found) if found else ""), found


def write_crate(folder, crate, needed):
    """Writes one crate; gives its exports."""
    sources = ROOT / "crates" / crate / "src"
    (folder / crate / "src").mkdir(parents=True)
    found, texts = [], {}
    for source in sorted(sources.rglob("*")):
        if source.is_dir() or source.suffix != ".rt":
            raise Refused(f"{source.relative_to(ROOT)}: a crate's sources are files NAME.rt in src/")
        texts[source], exported = rewritten(source, crate)
        found += exported
    uses_older = any(older.USE in text for text in texts.values())
    if uses_older:
        (folder / crate / "src" / "older.rs").write_text(older.MODULE)
    for source, text in texts.items():
        text = HEAD.format(crate=crate, source=source.name) + text
        if source.name == "lib.rt":
            text += "\nmod older;\n" if uses_older else ""
            text = NO_STD + (EXPORTING + text + PANIC_HANDLER if crate == LIBRARY else SAFE + text)
        (folder / crate / "src" / source.name).with_suffix(".rs").write_text(text)
    package = PACKAGE.format(name=crate, kind="staticlib" if crate == LIBRARY else "rlib")
    package += "".join(f'{name} = {{ path = "../{name}" }}\n' for name in needed)
    (folder / crate / "Cargo.toml").write_text(package)
    return found


def main(words):
    folder = Path(words[0]).resolve() if words else ROOT / "target" / "port"
    crates = needed_crates()
    found = []
    folder.mkdir(parents=True, exist_ok=True)
    for crate, needed in crates.items():
        shutil.rmtree(folder / crate, ignore_errors=True)
        found += write_crate(folder, crate, needed)
    exports.compare_with_header(found, (ROOT / "include" / "kozbrax.h").read_text())
    members = ", ".join(f'"{crate}"' for crate in crates)
    (folder / "Cargo.toml").write_text(WORKSPACE.format(members=members))
    print(f"{len(crates)} crates with {len(found)} exported functions, which are the header's, in {folder}")


if __name__ == "__main__":
    try:
        main(sys.argv[1:])
    except Refused as refusal:
        sys.exit(f"no_std.py: {refusal}")
