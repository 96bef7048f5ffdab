"""What the repository's rows say of the program and of the Rattle library holds of the package."""
import json
import os
import re
import unittest

import wasm_wave as wave
from wasm_wave import Func, Type

ROWS = os.path.join(os.path.dirname(os.path.abspath(__file__)), *[os.pardir] * 3, "tests")
SPAN = re.compile(r" at (\d+)\.\.(\d+)$")

# the names that the program takes for types
PROGRAM_TYPES = {
    "bytes": "list<u8>",
    "perms": "flags { read, write, exec }",
    "status": "enum { ok, not-found }",
    "response": "variant { empty, body(list<u8>), err(string) }",
    "example": "record { must-have: u8, optional: option<u8> }",
    "counts": "map<string, u32>",
    "quad": "list<u8, 4>",
}


def rows(name):
    with open(os.path.join(ROWS, name), encoding="ascii") as lines:
        return [json.loads(line) for line in lines]


def vectors(command):
    """The rows of the program with this command, but those of lines or of the help: the words behind it, and the row."""
    found = [(row["words"][1:], row) for row in rows("vectors.jsonl") if row["words"][:1] == [command]]
    return [(words, row) for words, row in found if not any(word.startswith("-") for word in words)]


class Rows(unittest.TestCase):
    def check_refusal(self, row, call, *arguments, **named):
        """The call raises what the program prints."""
        text = arguments[-1]
        with self.assertRaises(wave.WaveError) as raised:
            call(*arguments, **named)
        error = raised.exception
        printed = row["stdout"] if isinstance(row["stdout"], list) else [row["stdout"]]
        self.assertIn(f"{error}\n", printed)
        if "stderr" in row:
            self.assertEqual(error.explanation, row["stderr"])
        start, end = map(int, SPAN.search(str(error)).groups())
        self.assertEqual(len(text[: error.start].encode()), start)
        self.assertEqual(error.end, len(text.encode()[:end].decode("utf-8", "replace")))

    def test_reading(self):
        tried = {0: 0, 1: 0}
        for words, row in vectors("read"):
            if row["status"] not in tried:
                continue
            tried[row["status"]] += 1
            ty, text, levels = Type(PROGRAM_TYPES.get(words[0], words[0])), row["stdin"], int((words[1:] or ["100"])[0])
            with self.subTest(row["name"]):
                if row["status"] == 0:
                    for bytes_for_u8 in (False, True):
                        value = wave.loads(ty, text, bytes_for_u8=bytes_for_u8, levels=levels)
                        self.assertEqual(wave.dumps(ty, value) + "\n", row["stdout"])
                else:
                    self.check_refusal(row, wave.loads, ty, text, levels=levels)
        self.assertGreater(min(tried.values()), 50)

    def test_reading_without_type(self):
        tried = {0: 0, 1: 0}
        for words, row in vectors("value"):
            if row["status"] not in tried:
                continue
            tried[row["status"]] += 1
            levels = int((words or ["100"])[0])
            with self.subTest(row["name"]):
                if row["status"] == 0:
                    self.assertEqual(wave.untyped(row["stdin"], levels=levels) + "\n", row["stdout"])
                else:
                    self.check_refusal(row, wave.untyped, row["stdin"], levels=levels)
        self.assertGreater(min(tried.values()), 20)

    def test_calls(self):
        tried = {0: 0, 1: 0}
        for words, row in vectors("call"):
            if len(words) != 1 or row["status"] not in tried:
                continue
            tried[row["status"]] += 1
            func = Func(words[0])
            with self.subTest(row["name"]):
                if row["status"] == 0:
                    name, values = wave.loads_call(func, row["stdin"])
                    texts = [wave.dumps(ty, value) for (_, ty), value in zip(func.parameters, values)]
                    self.assertEqual(len(values), len(func.parameters))
                    self.assertEqual(f"{name}({', '.join(texts)})\n", row["stdout"])
                else:
                    self.check_refusal(row, wave.loads_call, func, row["stdin"])
        self.assertGreater(min(tried.values()), 5)

    def test_types(self):
        made = {"Type::parse": Type, "FuncType::parse": Func, "parsed again": Type}
        found = [row for row in rows("calls.jsonl") if row["words"][0] in made]
        self.assertGreater(len(found), 50)
        for row in found:
            call, text = row["words"]
            with self.subTest(row["name"]):
                if SPAN.search(row["answer"]):
                    with self.assertRaises(wave.TypeTextError) as raised:
                        made[call](text)
                    self.assertEqual(str(raised.exception), row["answer"])
                else:
                    self.assertEqual(str(made[call](text)), row["answer"].partition(" true")[0])


if __name__ == "__main__":
    unittest.main()
