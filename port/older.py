"""Writes what rustc knows only since a version above 1.63 in words that 1.63 has: `let PATTERN = VALUE else { .. };`, and functions of core."""
from scanner import Refused, Token, closing, neighbour, text_at

# A function of core that is newer, and the one of the module below that stands for it.
FUNCTIONS = {"as_chunks": "whole_chunks", "cast_signed": "same_bits", "div_ceil": "quotient_up", "ilog2": "floor_log"}

USE = "\nuse crate::older::*;\n"

MODULE = """// Written by port/no_std.py: functions of core that are newer than rustc 1.63, under names of their own.
use core::convert::TryInto;
use core::iter::Map;
use core::slice::ChunksExact;

type Arrays<'a, const N: usize> = Map<ChunksExact<'a, u8>, fn(&[u8]) -> &[u8; N]>;

fn array<const N: usize>(chunk: &[u8]) -> &[u8; N] {
    match chunk.try_into() {
        Ok(array) => array,
        Err(_) => unreachable!(),
    }
}

pub trait WholeChunks {
    fn whole_chunks<const N: usize>(&self) -> (Arrays<'_, N>, &[u8]);
}

impl WholeChunks for [u8] {
    fn whole_chunks<const N: usize>(&self) -> (Arrays<'_, N>, &[u8]) {
        let chunks = self.chunks_exact(N);
        let rest = chunks.remainder();
        (chunks.map(array::<N>), rest)
    }
}

pub trait SameBits {
    fn same_bits(self) -> i16;
}

impl SameBits for u16 {
    fn same_bits(self) -> i16 {
        self as i16
    }
}

pub trait Quotient {
    fn quotient_up(self, divisor: Self) -> Self;
    fn floor_log(self) -> u32;
}

impl Quotient for u32 {
    fn quotient_up(self, divisor: u32) -> u32 {
        self / divisor + (self % divisor != 0) as u32
    }

    fn floor_log(self) -> u32 {
        31 - self.leading_zeros()
    }
}
"""


def names_bound(pattern, where):
    """The names that a pattern binds: its words that are no keyword and do not begin with a capital letter. Known are names, `ref`, constructors
    around them and slices; paths, fields, numbers, `mut`, `true` and `false` are not."""
    for token in pattern:
        if token.kind not in ("blank", "word", "symbol") or token.text in (":", "::", "mut", "true", "false"):
            raise Refused(f"{where}: '{token.text}' in a pattern in front of `else`")
    found = [token.text for token in pattern if token.kind == "word" and not token.text[0].isupper() and token.text not in ("ref", "_")]
    if not found:
        raise Refused(f"{where}: a pattern that binds no name in front of `else`")
    found = list(dict.fromkeys(found))
    return found[0] if len(found) == 1 else "(" + ", ".join(found) + ")"


def end_of_value(tokens, i, where):
    """Of `let .. = VALUE` with `let` at place i: the places of `=`, and of `else` where one follows the value. An `else` behind a brace is an `if`'s."""
    equal, at = None, i + 1
    while at < len(tokens):
        text = tokens[at].text
        if tokens[at].kind == "symbol" and text in ("(", "[", "{"):
            at = closing(tokens, at, where)
        elif text == "=" and equal is None:
            equal = at
        elif text == ";":
            return equal, None
        elif text == "else" and text_at(tokens, neighbour(tokens, at, -1)) != "}":
            return equal, at
        at += 1
    return equal, None


def without_let_else(tokens, where):
    """The tokens with `let PATTERN = VALUE else BLOCK;` as a `match` whose other arm is the block."""
    done, i = [], 0
    while i < len(tokens):
        previous = neighbour(tokens, i, -1)
        if tokens[i].text != "let" or tokens[i].kind != "word" or text_at(tokens, previous) in ("if", "while"):
            done.append(tokens[i])
            i += 1
            continue
        at = f"{where}:{tokens[i].line}"
        equal, other = end_of_value(tokens, i, where)
        if equal is None or other is None:
            done.append(tokens[i])
            i += 1
            continue
        block = neighbour(tokens, other, 1)
        end = closing(tokens, block, where)
        names = names_bound(tokens[i + 1:equal], at)
        if any(token.kind == "comment" for token in tokens[i:block]):
            raise Refused(f"{at}: a comment between `let` and the block behind `else`")
        pattern = "".join(token.text for token in tokens[i + 1:equal]).strip()
        inner = without_let_else(tokens[equal + 1:other] + [Token("mark", "", 0)] + tokens[block:end + 1], where)
        mark = next(k for k, token in enumerate(inner) if token.kind == "mark")
        value = "".join(token.text for token in inner[:mark]).strip()
        rest = "".join(token.text for token in inner[mark:])
        done.append(Token("", f"let {names} = match {value} {{ {pattern} => {names}, _ => {rest} }}", tokens[i].line))
        i = end + 1
    return done


def with_older_functions(tokens):
    """The tokens with the functions above in place of core's, and whether there are any."""
    renamed = [
        Token(token.kind, FUNCTIONS[token.text], token.line)
        if token.kind == "word" and token.text in FUNCTIONS and text_at(tokens, neighbour(tokens, i, -1)) == "." else token
        for i, token in enumerate(tokens)
    ]
    return renamed, renamed != tokens
