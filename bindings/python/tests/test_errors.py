"""What is raised of texts, of the texts of types, and of objects."""
import pickle
import sys
import threading
import traceback
import unittest

import wasm_wave as wave
from wasm_wave import Case, Err, Kind, Ok, Some, TypeKind

SERVERS = "record { servers: list<record { host: string, port: u16 }> }"
ONE = {"host": "a", "port": 1}

# texts at types; the kind of the refusal, what is marked, and the path
REFUSED = [
    ("u8", "()", Kind.EMPTY_TUPLE, "()", ""),
    ("char", r"'\u{D800}'", Kind.INVALID_ESCAPE, r"'\u{D800}'", ""),
    ("string", '"""é\n"""', Kind.INVALID_MULTILINE_STRING, "é", ""),  # a span that ends within a character
    ("list<u8>", "[1 ☃]", Kind.INVALID_TOKEN, "☃", ""),
    ("list<string>", '["lög", 300]', Kind.INVALID_TYPE, "300", "[1]"),
    ("map<string, list<u8>>", '{"日é": [1, 300]}', Kind.INVALID_VALUE, "300", '["日é"][1]'),
    ("map<string, u8>", '{"a, at b": 300}', Kind.INVALID_VALUE, "300", '["a, at b"]'),
    ("string", '"日" 2', Kind.TRAILING_CHARACTERS, "2", ""),
    ("list<string>", '["👋"', Kind.UNEXPECTED_END, "", ""),
    ("list<string>", '["👋" "é"]', Kind.UNEXPECTED_TOKEN, '"é"', ""),
    ("record { a: string }", '{a: "é", a: "日"}', Kind.DUPLICATE_FIELD, "a", ""),
    ("tuple<string, flags { a }>", '("é", {a, a})', Kind.DUPLICATE_FLAG, "a", ""),
    ("tuple<string, tuple<u8>>", '("é", (1, 2))', Kind.WASM_VALUE_ERROR, "(1, 2)", "[1]"),
    ("tuple<string, list<f64>>", '("é", [1.5])', Kind.WASM_VALUE_ERROR, "1.5", "[1][0]"),
    ("tuple<string, option<u8>>", '("é", some(-1))', Kind.INVALID_VALUE, "-1", "[1].some"),
    ("string", '["\ud800"]', Kind.NOT_UTF8, "\ud800", ""),
]

REFUSED_TYPES = [
    ("list<u9>", TypeKind.UNEXPECTED_TOKEN, "u9"),
    ("list<u8", TypeKind.UNEXPECTED_END, ""),
    ("enum { é }", TypeKind.INVALID_TOKEN, "é"),
    ("// 日é\nrecord { a: u8, a: u8 }", TypeKind.DUPLICATE_NAME, "a"),
    ("map<f32, u8>", TypeKind.INVALID_KEY_TYPE, "f32"),
    ("list<u8, 1.5>", TypeKind.INVALID_COUNT, "1.5"),
    ("list<" * 100 + "u8" + ">" * 100, TypeKind.NESTING_TOO_DEEP, "u8"),
    ("u8\udfff", TypeKind.NOT_UTF8, "\udfff"),
]

# types, objects that are none of theirs, and what is told of these
WRONG = [
    (SERVERS, {"servers": [ONE, ONE, {"host": "c", "port": "3"}]}, ".servers[2].port: expected u16, got str"),
    (SERVERS, {"servers": [ONE, {"host": "c"}]}, '.servers[1]: missing field "port"'),
    (SERVERS, {"servers": [{**ONE, "prt": 1}]}, '.servers[0]: unknown field "prt"; expected one of host, port'),
    (SERVERS, {"servers": [{**ONE, 7: 1}]}, ".servers[0]: unknown field of type int; expected one of host, port"),
    ("record { a: u8 }", {"a": 1, "\ud800é": 1}, r'unknown field "\ud800é"; expected one of a'),
    (SERVERS, {"servers": {}}, ".servers: expected list<record { host: string, port: u16 }>, got dict"),
    (SERVERS, [], f"expected {SERVERS}, got list"),
    (f"tuple<{SERVERS}>", [], "expected 1 tuple elements, got 0"),
    (f"tuple<{SERVERS}>", 1, f"expected tuple<{SERVERS[:54]}…, got int"),
    ("bool", 1, "expected bool, got int"),
    ("bool", None, "expected bool, got None"),
    ("u8", True, "expected u8, got bool"),
    ("u8", 1.0, "expected u8, got float"),
    ("u8", 256, "expected u8, a whole number from 0 to 255, got 256"),
    ("s64", 1 << 63, "expected s64, a whole number from -9223372036854775808 to 9223372036854775807, got 9223372036854775808"),
    ("u8", 1 << 40_000, "expected u8, a whole number from 0 to 255, got one of 40001 bits"),
    ("char", "ab", "expected char, got a str of 2 characters"),
    ("char", "\ud800", r"expected char, got the surrogate '\ud800'"),
    ("char", 7, "expected char, got int"),
    ("string", b"a", "expected string, got bytes"),
    ("list<string>", ["a", "b\udfff"], r"[1]: expected string, got a str with the surrogate '\udfff' at 1"),
    ("list<f32>", [1.0], "[0]: f32 and f64 have no values here"),
    ("list<u8>", "ab", "expected list<u8>, got str"),
    ("list<u16>", b"ab", "expected list<u16>, got bytes"),
    ("list<u8>", {1, 2}, "expected list<u8>, got set"),
    ("list<u8>", [1, 300, "x"], "[1]: expected u8, a whole number from 0 to 255, got 300"),
    ("list<u8>", [1, True], "[1]: expected u8, got bool"),
    ("list<s32>", [1, 2.0], "[1]: expected s32, got float"),
    ("list<u8, 3>", [1, 2], "expected 3 list elements, got 2"),
    ("list<u8, 2>", b"abc", "expected 2 list elements, got 3"),
    ("tuple<u8, string>", (1, 2), "[1]: expected string, got int"),
    ("tuple<u8>", 1, "expected tuple<u8>, got int"),
    ("variant { body(list<u8>), none }", Case("body", [1, 256]), ".body[1]: expected u8, a whole number from 0 to 255, got 256"),
    ("variant { body(list<u8>), none }", Case("bdy"), 'unknown case "bdy"; expected one of body, none'),
    ("variant { body(list<u8>), none }", Case([]), "unknown case of type list; expected one of body, none"),
    ("variant { body(list<u8>), none }", Case("none", 1), 'unexpected payload for "none" case'),
    ("variant { body(list<u8>), none }", Case("body"), ".body: expected list<u8>, got None"),
    ("variant { body(list<u8>), none }", "none", "expected variant { body(list<u8>), none }, got str"),
    ("enum { a, b }", Case("a"), "expected enum { a, b }, got Case"),
    ("enum { a, b, c, d, e, f, g, h, i, j, k }", "x", 'unknown case "x"; expected one of a, b, c, d, e, f, g, h, i, j, …'),
    ("option<u8>", "x", "expected u8, got str"),
    ("option<option<u8>>", 1, "expected None or Some for option<option<u8>>, got int"),
    ("option<option<list<u8>>>", Some(Some([1, "x"])), ".some.some[1]: expected u8, got str"),
    ("option<u8>", Some(None), ".some: expected u8, got None"),
    ("result<u8, string>", 1, "expected Ok or Err for result<u8, string>, got int"),
    ("result<u8, string>", Ok("x"), ".ok: expected u8, got str"),
    ("result<u8, string>", Err(3), ".err: expected string, got int"),
    ("result<u8>", Err(1), 'unexpected payload for "err" case'),
    ("flags { r, w }", ["r"], "expected flags { r, w }, got list"),
    ("flags { r, w }", {"r", "x"}, 'unknown flag "x"; expected one of r, w'),
    ("flags { r, w }", {1}, "unknown flag of type int; expected one of r, w"),
    ("map<string, u8>", [("a", 1)], "expected map<string, u8>, got list"),
    ("map<string, u8>", {"a": 1, 2: 1}, "of a key: expected string, got int"),
    ("map<u8, bool>", {1: True, True: False, 2: 0}, "[2]: expected bool, got int"),
    ("map<u8, bool>", {True: True}, "of a key: expected u8, got bool"),
    ("map<bool, bool>", {False: 1}, "[false]: expected bool, got int"),
    ("map<char, bool>", {"é": 1}, "['é']: expected bool, got int"),
    ("map<string, bool>", {"a key of more than twenty-four scalars": 1}, '["a key of more than twen…]: expected bool, got int'),
    ("map<string, bool>", {'"\n': 1}, r'["\"\n"]: expected bool, got int'),
    ("record { m: map<string, list<u8>> }", {"m": {"k": ["x"]}}, '.m["k"][0]: expected u8, got str'),
]


class Texts(unittest.TestCase):
    def refused(self, call, *arguments, **named):
        with self.assertRaises(wave.WaveError) as raised:
            call(*arguments, **named)
        return raised.exception

    def test_values(self):
        for spelled, text, kind, marked, path in REFUSED:
            with self.subTest(spelled, text=text):
                error = self.refused(wave.loads, spelled, text)
                self.assertEqual((error.kind, text[error.start : error.end], error.path), (kind, marked, path))
                self.assertNotRegex(error.message, r"\n|^$| at \d+\.\.\d+$")
                self.assertTrue(error.explanation.encode().startswith(error.message.encode()))

    def test_types(self):
        for text, kind, marked in REFUSED_TYPES:
            for call, spelled in ((wave.loads, text), (wave.loads_call, f"func(a: u8) -> {text}")):
                with self.subTest(spelled):
                    error = self.refused(call, spelled, "1")
                    self.assertIsInstance(error, wave.TypeTextError)
                    self.assertEqual((error.kind, spelled[error.start : error.end]), (kind, marked))

    def test_calls(self):
        error = self.refused(wave.loads_call, "func(a: string, b: list<u8>)", 'f("é", [1, 300])')
        self.assertEqual((error.kind, error.start, error.end, error.path), (Kind.INVALID_VALUE, 11, 14, "parameter b[1]"))
        self.assertEqual(self.refused(wave.loads_call, "func(a: u8)", "f(1, 2)").kind, Kind.INVALID_PARAMS)

    def test_messages(self):
        error = self.refused(wave.loads, "list<u8>", "[1, 300]")
        self.assertIsInstance(error, ValueError)
        self.assertEqual((str(error), error.message), ("invalid value at 4..7", "invalid value"))
        explanation = """invalid value at 4..7
 --> line 1, column 5, at [1]
  | [1, 300]
  |     ^^^
  = expected u8, a whole number from 0 to 255
"""
        self.assertEqual(error.explanation, explanation)
        if sys.version_info >= (3, 11):
            self.assertIn(explanation, "".join(traceback.format_exception(error)))
        copied = pickle.loads(pickle.dumps(error))
        self.assertEqual((type(copied), str(copied), vars(copied)), (wave.WaveError, str(error), vars(error)))

    def test_levels(self):
        self.assertEqual(wave.loads("list<list<u8>>", "[[1]]", levels=3), [[1]])
        error = self.refused(wave.loads, "list<list<u8>>", "[[1]]", levels=2)
        self.assertEqual((error.kind, error.start, error.end), (Kind.NESTING_TOO_DEEP, 1, 2))
        deep = "[" * 1000 + "]" * 1000
        self.assertEqual(wave.untyped(deep, levels=1000), deep)
        for levels in ({}, {"levels": 999}):
            self.assertIs(self.refused(wave.untyped, deep, **levels).kind, Kind.NESTING_TOO_DEEP)
        func = "func(a: list<u8>)"
        self.assertEqual(wave.loads_call(func, "f([1])", levels=2), ("f", [[1]]))
        error = self.refused(wave.loads_call, func, "f([1])", levels=1)
        self.assertEqual((error.kind, error.start, error.end), (Kind.NESTING_TOO_DEEP, 2, 3))
        self.assertIs(self.refused(wave.loads_call, func, f"f({deep})", levels=1000).kind, Kind.INVALID_TYPE)
        for levels in (0, -1, 1001, 2.0, None):
            for call, spelled in ((wave.loads, "u8"), (wave.loads_call, "func()")):
                with self.assertRaises(ValueError):
                    call(spelled, "1", levels=levels)

    def test_stack(self):
        """A thread of 1 MB serves 100 levels, one of 4 MB 1000."""
        ty, within = "list<" * 99 + "u8" + ">" * 99, "[" * 99 + "7" + "]" * 99
        for megabytes, levels in ((1, 100), (4, 1000)):
            deep, told = "[" * levels + "]" * levels, []

            def work():
                told.append(wave.dumps(ty, wave.loads(ty, within)))
                told.append(wave.untyped(deep, levels=levels))
                told.append(self.refused(wave.loads, ty, deep, levels=levels).kind)
                told.append(self.refused(wave.loads_call, f"func(a: {ty})", f"f({deep})", levels=levels).kind)

            before = threading.stack_size(megabytes << 20)
            try:
                thread = threading.Thread(target=work)
                thread.start()
                thread.join()
            finally:
                threading.stack_size(before)
            self.assertEqual(told, [within, deep, Kind.INVALID_TYPE, Kind.INVALID_TYPE])


class Objects(unittest.TestCase):
    def test_each(self):
        for spelled, value, told in WRONG:
            with self.subTest(spelled, told=told):
                with self.assertRaises(wave.ValueTypeError) as raised:
                    wave.dumps(spelled, value)
                wrong = raised.exception
                self.assertIsInstance(wrong, TypeError)
                self.assertEqual(str(wrong), told)
                self.assertEqual(f"{wrong.path}: {wrong.reason}" if wrong.path else wrong.reason, told)
                self.assertEqual(str(pickle.loads(pickle.dumps(wrong))), told)

    def test_what_an_object_raises_itself(self):
        class Hostile(dict):
            def get(self, *of):
                raise KeyError("mine")

        with self.assertRaisesRegex(KeyError, "mine"):
            wave.dumps("record { a: u8 }", Hostile())


if __name__ == "__main__":
    unittest.main()
