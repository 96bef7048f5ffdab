"""Objects become texts, and texts objects."""
import copy
import pickle
import random
import unittest
from collections import OrderedDict
from enum import IntEnum

import wasm_wave as wave
from wasm_wave import Case, Err, Flags, Func, Ok, Some, Type

from .samples import some_type, some_value

# types, texts, their objects, and the canonical texts of these
VALUES = [
    ("bool", "true", True, "true"),
    ("s8", "-0", 0, "0"),
    ("s16", "-32768", -32768, "-32768"),
    ("u64", str((1 << 64) - 1), (1 << 64) - 1, str((1 << 64) - 1)),
    ("char", r"'\u{1F44B}'", "👋", "'👋'"),
    ("string", '"a\\tb"', "a\tb", '"a\\tb"'),
    ("list<u8>", "[1, 2,]", [1, 2], "[1, 2]"),
    ("list<bool>", "[]", [], "[]"),
    ("list<string, 2>", '["a", "b"]', ["a", "b"], '["a", "b"]'),
    ("list<list<u8, 0>, 2>", "[[], []]", [[], []], "[[], []]"),
    ("tuple<u8, bool>", "(1, false)", (1, False), "(1, false)"),
    ("record { b: u8, a: option<u8> }", "{b: 1}", {"b": 1, "a": None}, "{b: 1}"),
    ("record { a: option<u8> }", "{:}", {"a": None}, "{:}"),
    ("variant { none, body(list<u8>) }", "%none", Case("none"), "%none"),
    ("variant { none, body(list<u8>) }", "body([7])", Case("body", [7]), "body([7])"),
    ("variant { a(option<u8>) }", "a(none)", Case("a", None), "a(none)"),
    ("enum { ok, not-found }", "%ok", "ok", "%ok"),
    ("option<u8>", "7", 7, "some(7)"),
    ("option<option<u8>>", "some(none)", Some(None), "some(none)"),
    ("option<option<u8>>", "some(1)", Some(1), "some(some(1))"),
    ("option<option<u8>>", "none", None, "none"),
    ("result", "ok", Ok(), "ok"),
    ("result<u8>", "7", Ok(7), "ok(7)"),
    ("result<option<u8>, u8>", "ok(none)", Ok(None), "ok(none)"),
    ("result<_, string>", 'err("x")', Err("x"), 'err("x")'),
    ("flags { r, w, x }", "{x, r}", Flags(["r", "x"]), "{r, x}"),
    ("map<string, u8>", '{"b": 1, "a": 2, "b": 3}', {"b": 3, "a": 2}, '{"b": 3, "a": 2}'),
    ("map<bool, u8>", "{true: 1, false: 2}", {True: 1, False: 2}, "{true: 1, false: 2}"),
    ("map<u8, bool>", "{1: true, 0: false}", {1: True, 0: False}, "{1: true, 0: false}"),
    ("map<u8, u8>", "{}", {}, "{}"),
    ("list<f64>", "[]", [], "[]"),
    ("option<f32>", "none", None, "none"),
]


class Port(IntEnum):
    HTTP = 80


class Values(unittest.TestCase):
    def test_both_ways(self):
        for spelled, text, value, canonical in VALUES:
            with self.subTest(spelled, text=text):
                read = wave.loads(spelled, text)
                self.assertEqual((read, type(read)), (value, type(value)))
                self.assertEqual(repr(read), repr(value))  # the order too, and True is no 1
                self.assertEqual(wave.dumps(spelled, value), canonical)

    def test_bytes(self):
        for spelled, text, value in (
            ("list<u8>", "[1, 2]", b"\1\2"),
            ("list<u8, 2>", "[1, 2]", b"\1\2"),
            ("list<u8, 0>", "[]", b""),
            ("record { a: list<list<u8>>, b: list<s8> }", "{a: [[], [7]], b: [7]}", {"a": [b"", b"\7"], "b": [7]}),
        ):
            self.assertEqual(wave.loads(spelled, text, bytes_for_u8=True), value)
            self.assertEqual(wave.dumps(spelled, value), text)
        self.assertEqual(wave.loads_call("func(a: list<u8>)", "f([1])", bytes_for_u8=True), ("f", [b"\1"]))

    def test_what_else_is_taken(self):
        for spelled, value, text in (
            ("list<u8>", (1, 2), "[1, 2]"),
            ("list<u8>", bytearray(b"\1"), "[1]"),
            ("list<u8>", [Port.HTTP, 1], "[80, 1]"),
            ("tuple<u8, u8>", [1, Port.HTTP], "(1, 80)"),
            ("option<u8>", Some(7), "some(7)"),
            ("record { a: u8, b: option<u8>, c: option<option<u8>> }", OrderedDict(a=1), "{a: 1}"),
            ("record { b: u8, a: u8 }", {"a": 2, "b": 1}, "{b: 1, a: 2}"),
            ("map<u8, u8>", OrderedDict([(2, 1), (1, 1)]), "{2: 1, 1: 1}"),
            ("flags { r, w, x }", {"x", "r"}, "{r, x}"),
            ("flags { r, w, x }", {"x": 1, "r": 2}.keys(), "{r, x}"),
        ):
            with self.subTest(spelled, value=value):
                self.assertEqual(wave.dumps(spelled, value), text)

    def test_random_values(self):
        drawn = random.Random(3)
        for _ in range(1000):
            node = some_type(drawn, 5)
            ty, value = Type(str(node)), some_value(drawn, node)
            with self.subTest(str(ty), value=value):
                text = wave.dumps(ty, value)
                self.assertEqual(str(ty), str(node))
                self.assertEqual(wave.loads(ty, text), value)
                self.assertEqual(wave.dumps(ty, wave.loads(ty, text, bytes_for_u8=True)), text)

    def test_many_and_deep(self):
        numbers = [place * 7919 % (1 << 32) for place in range(100_000)]
        text = wave.dumps("list<u32>", numbers)
        self.assertEqual(text, f"{numbers}")
        self.assertEqual(wave.loads("list<u32>", text), numbers)
        self.assertEqual(wave.loads("list<s64>", "[" + "1," * 100_000 + "]"), [1] * 100_000)
        ty, text = "list<" * 99 + "u8" + ">" * 99, "[" * 99 + "7" + "]" * 99
        self.assertEqual(wave.dumps(ty, wave.loads(ty, text)), text)

    def test_calls(self):
        func = Func("func(a: u8, %b: option<string>,) -> (n: u8)")
        self.assertEqual(wave.loads_call(func, "a:b/c.d@1.0.0(7)"), ("a:b/c.d@1.0.0", [7, None]))
        self.assertEqual(wave.loads_call(str(func), 'f(7, "é")'), ("f", [7, "é"]))
        self.assertEqual(wave.loads_call("func()", "f ( )"), ("f", []))
        self.assertEqual((func.parameters, func.results), ((("a", "u8"), ("b", "option<string>")), (("n", "u8"),)))
        self.assertEqual(Func("func() -> list<f64>").results, (("", "list<f64>"),))

    def test_without_type(self):
        self.assertEqual(wave.untyped('{ %b,a , }'), "{a, b}")


class Objects(unittest.TestCase):
    def test_types(self):
        one, same = Type("list<u8>"), Type("list < u8, >")
        self.assertEqual((str(same), repr(same)), ("list<u8>", "Type('list<u8>')"))
        self.assertEqual((one, hash(one)), (same, hash(same)))
        self.assertNotEqual(one, Type("list<u16>"))
        self.assertNotEqual(one, "list<u8>")
        self.assertNotEqual(Func("func()"), Type("u8"))
        self.assertEqual(wave.loads(pickle.loads(pickle.dumps(one)), "[1]"), [1])
        for wrong in (None, 7, b"u8", Func("func()")):
            with self.assertRaises(TypeError):
                wave.loads(wrong, "1")
        with self.assertRaises(TypeError):
            wave.loads("u8", b"1")

    def test_flags(self):
        flags = Flags(["b", "a", "b"])
        self.assertEqual((list(flags), repr(flags)), (["b", "a"], "Flags(['b', 'a'])"))
        for same in ({"a", "b"}, frozenset("ab"), Flags("ab"), {"a": 1, "b": 2}.keys()):
            self.assertEqual(flags, same)
            self.assertEqual(same, flags)
        for other in ({"a"}, {"a", "b", "c"}, ["b", "a"], {"b": 1, "a": 1}, None):
            self.assertNotEqual(flags, other)
        self.assertEqual(hash(flags), hash(frozenset("ab")))
        self.assertIn("a", flags)
        self.assertEqual(list(flags | {"c"}), ["b", "a", "c"])
        self.assertEqual(flags - {"a"}, Flags("b"))
        self.assertFalse(Flags())

    def test_copies(self):
        for value in (Flags(["b", "a"]), Case("a", [1]), Some(None), Ok(), Err("x"), {"a": Some(Flags("ba"))}):
            for copied in (copy.deepcopy(value), pickle.loads(pickle.dumps(value))):
                self.assertEqual((copied, repr(copied)), (value, repr(value)))
        self.assertEqual(repr(Case("a", Some(1))), "Case(name='a', payload=Some(value=1))")
        self.assertNotEqual(Ok(1), Err(1))


if __name__ == "__main__":
    unittest.main()
