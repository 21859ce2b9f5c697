#!/usr/bin/env python3
"""Tests of no_std.py: what it takes out, what it changes and what it refuses. Run: python3 port/test_no_std.py"""
import contextlib
import io
import tempfile
import unittest
from pathlib import Path

import exports
import no_std
import older
from scanner import Refused, joined, scan

CONTRACT = "    requires { a < 2 }\n    ensures low { result ≡ { a } }\n    ensures high { result < 2 }\n"


def rewritten(text, crate="sha256"):
    """A source of this text as the script writes it."""
    with tempfile.TemporaryDirectory(dir=no_std.ROOT / "port") as folder:
        source = Path(folder) / "source.rt"
        source.write_text(text)
        return no_std.rewritten(source, crate)[0]


class TakenOut(unittest.TestCase):
    def test_ghost_fields_and_items(self):
        source = "#[derive(Drop)]\nstruct A {\n    a: u8,\n    ghost b: { B a },\n}\n"
        self.assertEqual(rewritten(source), "struct A {\n    a: u8,\n    }\n", "a ghost field and a derive of Rattle's own go")
        source = "impl Iterator for A {\n    type Item = u8;\n\n    ghost next_gives = { a (λ t. b t) };\n\n}\n"
        self.assertEqual(rewritten(source), "impl Iterator for A {\n    type Item = u8;\n\n    \n}\n", "a ghost item goes")

    def test_drop_bounds(self):
        self.assertEqual(rewritten("fn f<T: Drop>(a: T) {\n}\n"), "fn f<T>(a: T) {\n}\n", "what every type of Rust is goes")

    def test_ghost_uses_and_contracts(self):
        source = f"#![tactic(auto)]\nghost use a.b.c.{{◌≡◌, d}};\nuse a::b;\n\nfn f(a: u8) -> u8\n{CONTRACT}{{\n    a\n}}\n"
        self.assertEqual(rewritten(source), "use a::b;\n\nfn f(a: u8) -> u8\n{\n    a\n}\n", "contracts and ghost uses go")

    def test_words_in_comments_and_strings_stay(self):
        source = "// requires { ghost\nconst A: [u8; 10] = b\"ensures { \\\"\";\nconst B: u8 = b'{';\n"
        self.assertEqual(rewritten(source), source, "comments and literals are copied")

    def test_every_source_is_its_tokens(self):
        for crate in no_std.needed_crates():
            for source in (no_std.ROOT / "crates" / crate / "src").iterdir():
                text = source.read_text()
                self.assertEqual(joined(scan(text, source.name)), text, f"tokens of {source}")


class Changed(unittest.TestCase):
    def test_derives_stay(self):
        for source in ("#[repr(C)]\n#[derive(Clone, Copy)]\npub struct A {\n}\n", "#[derive(Clone, Copy)]\nenum A {\n}\n"):
            self.assertEqual(rewritten(source), source, "plain data")

    def test_forms_that_stay(self):
        source = (
            "fn f<'a>(s: &'a [u8]) -> Option<&'a [u8]> {\n    if let &[a, ref b @ ..] = s {\n        g(a)?;\n"
            "        for k in 0..2 {\n        }\n    }\n    let c = if d { 1 } else { 2 };\n    Some(b)\n}\n"
        )
        self.assertEqual(rewritten(source), source, "patterns, `?` and loops")

    def test_let_else(self):
        for source, text in (
            ("let Some(a) = f(b) else { return None };", "let a = match f(b) { Some(a) => a, _ => { return None } };"),
            ("let Some((a, _b)) = c else { return };", "let (a, _b) = match c { Some((a, _b)) => (a, _b), _ => { return } };"),
            ("let &[a, ref b @ ..] = s else { return 1 };", "let (a, b) = match s { &[a, ref b @ ..] => (a, b), _ => { return 1 } };"),
            (
                "let Ok(a) = g({ 1 }, [2]) else {\n        let Some(c) = h() else { return };\n        return;\n    };",
                "let a = match g({ 1 }, [2]) { Ok(a) => a, _ => {\n        let c = match h() { Some(c) => c, _ => { return } };\n        return;\n    } };",
            ),
        ):
            self.assertEqual(rewritten(f"fn f() {{\n    {source}\n}}\n"), f"fn f() {{\n    {text}\n}}\n", "a match in place of `let .. else`")

    def test_changes_within_let_else(self):
        source = "fn f(a: usize) -> u32 {\n    let Some(b) = g(a % 4294967296) else { return h.ilog2() };\n    b\n}\n"
        text = "fn f(a: usize) -> u32 {\n    let b = match g(a as u64 % 4294967296) { Some(b) => b, _ => { return h.floor_log() } };\n    b\n}\n" + older.USE
        self.assertEqual(rewritten(source), text, "the other changes hold in its value and its block")

    def test_newer_functions(self):
        source = "fn f(a: u32, b: u32) -> u32 {\n    a.div_ceil(b).ilog2()\n}\n"
        text = "fn f(a: u32, b: u32) -> u32 {\n    a.quotient_up(b).floor_log()\n}\n" + older.USE
        self.assertEqual(rewritten(source), text, "functions of the module that is written beside the sources")
        source = "fn ilog2(a: u32) -> u32 {\n    ilog2(a)\n}\n"
        self.assertEqual(rewritten(source), source, "only methods are core's")

    def test_wide_numbers(self):
        source = "fn f(n: usize) -> u32 {\n    (n % 4294967296) as u32\n}\n"
        self.assertEqual(rewritten(source), "fn f(n: usize) -> u32 {\n    (n as u64 % 4294967296) as u32\n}\n", "divided as a u64")

    def test_an_export(self):
        source = '#[unsafe(no_mangle)]\npub extern "C" fn kozbrax_f(a: &[u8; 16], b: &mut [u32], c: u16) -> Firing {\n    g(a, b, c)\n}\n'
        text = rewritten(source, no_std.LIBRARY)
        self.assertTrue(text.startswith("pub fn kozbrax_f(a: &[u8; 16], b: &mut [u32], c: u16) -> Firing {\n"), "the function itself")
        for part in ("a: *const [u8; 16],", "b: *mut u32, b_len: usize,", "c: u16,", "use super::Firing;"):
            self.assertIn(part, text, "what C calls")
        for part in ("unsafe { &*a },", "unsafe { core::slice::from_raw_parts_mut(b, b_len) },"):
            self.assertIn(part, text, "what it makes of the pointers")


class WholeLibrary(unittest.TestCase):
    def test_each_kind_of_call(self):
        with tempfile.TemporaryDirectory() as folder:
            with contextlib.redirect_stdout(io.StringIO()) as said:
                no_std.main([folder])
            exported = (Path(folder) / no_std.LIBRARY / "src" / "calls.rs").read_text()
        crates = no_std.needed_crates()
        self.assertIn("18 crates with 23 exported functions, which are the header's", said.getvalue(), "what is written")
        for call in ("update", "write", "read", "give_up"):
            self.assertIn(f"user_{call}", crates, "the crate of a call")
            self.assertIn(f"fn kozbrax_{call}_start(\n        servers: u32,", exported, "what C calls to start it")


class RefusedForms(unittest.TestCase):
    def refused(self, text, says, crate="sha256"):
        with self.assertRaises(Refused, msg=text) as caught:
            rewritten(text, crate)
        self.assertIn(says, str(caught.exception), "what the refusal says")

    def test_ghost_forms(self):
        self.refused("fn f() {\n    ghost let a = 1;\n}\n", "ghost line")
        self.refused("fn f() {\n    while a invariant { b } {\n    }\n}\n", "'invariant'")
        self.refused("fn f() {\n    a = requires { b };\n}\n", "not between a function's head and its body")
        self.refused("fn f()\n    ensures { \"}\" }\n{\n}\n", "a quote")
        self.refused("fn f()\n    ensures { a\n", "does not end")

    def test_forms_of_rust(self):
        self.refused("fn f() {\n    panic!(1);\n}\n", "macro 'panic!'")
        self.refused("#[inline]\nfn f() {\n}\n", "attribute #[inline]")
        self.refused("unsafe fn f() {\n}\n", "'unsafe'")
        self.refused("/* a */\n", "no known token")
        self.refused("fn f() {\n    std::mem::swap(a, b);\n}\n", "a use of std")
        self.refused("fn f() -> u64 {\n    4294967296\n}\n", "more than 32 bits")
        self.refused("fn f() {\n    1.5;\n}\n", "no known token")
        self.refused("fn f() {\n    1e5;\n}\n", "the number 1e5")
        self.refused("fn f() {\n    let A { a: b } = c else { return };\n}\n", "':' in a pattern")
        self.refused("fn f() {\n    let Some(mut a) = c else { return };\n}\n", "'mut' in a pattern")
        self.refused("fn f() {\n    let Some(true) = c else { return };\n}\n", "'true' in a pattern")
        self.refused("fn f() {\n    let Some(a) = c // d\n    else { return };\n}\n", "a comment between")
        self.refused("fn f() {\n    let Some(a) = f(4294967296 as usize) else { return };\n}\n", "more than 32 bits")
        self.refused("fn f() {\n    let Some(a) = f(1e5) else { return };\n}\n", "the number 1e5")
        self.refused("fn f() {\n    let None = c else { return };\n}\n", "binds no name")

    def test_exports(self):
        head = '#[unsafe(no_mangle)]\npub extern "C" fn kozbrax_f'
        self.refused(head + "(a: &str) -> u32 {\n}\n", "'a: &str'", no_std.LIBRARY)
        self.refused(head + "(a: u64) -> u32 {\n}\n", "64 bits", no_std.LIBRARY)
        self.refused(head + "(a: u32) {\n}\n", "no result", no_std.LIBRARY)
        self.refused(head + "(a: u32) -> u32 {\n}\n", "attribute #[unsafe(no_mangle)]")

    def test_another_header(self):
        found = [exports.Export("kozbrax_f", [exports.parameter("a", "&[u8]", "")], "u32")]
        exports.compare_with_header(found, "uint32_t kozbrax_f(const uint8_t *a, size_t a_len);")
        for header in ("uint32_t kozbrax_f(uint8_t *a, size_t a_len);", "uint32_t kozbrax_f(const uint8_t *a);", ""):
            with self.assertRaises(Refused, msg=header):
                exports.compare_with_header(found, header)


if __name__ == "__main__":
    unittest.main()
