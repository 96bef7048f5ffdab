"""How the C library is found and called: its header, handles, threads, memory, and libraries of another version."""
import ctypes.util
import gc
import os
import random
import re
import subprocess
import sys
import tempfile
import threading
import unittest
from ctypes import POINTER, c_char_p, c_size_t, c_uint32, c_void_p
from unittest import mock

import wasm_wave as wave
from wasm_wave import Kind, Type, TypeKind, _handles, _library
from wasm_wave._decode import NoTape, read_tape
from wasm_wave._library import Parts, Report, library
from wasm_wave._type_tape import func_at, type_at

from .samples import some_type, some_value

TOP = os.path.dirname(os.path.dirname(os.path.abspath(__file__)))
HEADER = os.path.join(TOP, os.pardir, os.pardir, "include", "wave.h")

TYPES = {
    "const uint8_t *": c_char_p,
    "uint8_t *": c_void_p,
    "size_t": c_size_t,
    "uint32_t": c_uint32,
    "wave_report *": POINTER(Report),
    "wave_type *": POINTER(Parts),
    "wave_func *": POINTER(Parts),
}


class Header(unittest.TestCase):
    """What the package takes for the functions and numbers of the library is what the header declares."""

    @classmethod
    def setUpClass(cls):
        with open(HEADER, encoding="utf-8") as file:
            cls.header = re.sub(r"/\*.*?\*/", "", file.read(), flags=re.DOTALL)

    def test_functions(self):
        declared = {}
        for returned, name, parameters in re.findall(r"\b(uint32_t|void)\s+(wave_\w+)\(([^)]*)\)\s*;", self.header):
            types = [re.sub(r"\w+$", "", part.strip()).strip() for part in parameters.split(",") if part.strip() != "void"]
            declared[name] = (returned == "uint32_t", [TYPES[it] for it in types])
        for name, takes in _library._FUNCTIONS.items():
            with self.subTest(name):
                self.assertEqual(declared[name], (name not in _library._WITHOUT_STATUS, takes))

    def test_numbers(self):
        numbers = {name: int(number) for name, number in re.findall(r"\bWAVE_(\w+)\s*=\s*(\d+)", self.header)}
        for name in ("OK", "TOO_SMALL", "NO_MEMORY"):
            self.assertEqual(numbers[name], getattr(_library, name))
        for begins, kinds in (("KIND_", Kind), ("TYPE_KIND_", TypeKind)):
            named = {name[len(begins) :]: number for name, number in numbers.items() if name.startswith(begins)}
            self.assertEqual(named, {kind.name: kind.value for kind in kinds if kind.name != "NOT_UTF8"})


class Finding(unittest.TestCase):
    def found(self, **environment):
        """What the import and one call say in a Python of its own, with the package laid where no library is beside it."""
        code = "import wasm_wave as wave, wasm_wave._library as it; print(it.library.cache_info().currsize); print(wave.loads('u8', '1'))"
        with mock.patch.dict(os.environ, environment):
            return subprocess.run([sys.executable, "-c", code], cwd=TOP, capture_output=True, text=True)

    def test_no_library(self):
        """The import needs no library; the first call tells what was looked for."""
        said = self.found(WAVE_LIB_DIR="/nowhere")
        self.assertEqual(said.stdout, "0\n")
        self.assertIn("ImportError: no libwave.so.0 is in /nowhere, which WAVE_LIB_DIR names", said.stderr)

    def test_no_library_of_ours(self):
        with tempfile.TemporaryDirectory() as folder:
            path = os.path.join(folder, "libwave.so.0")
            with open(path, "w", encoding="ascii") as file:
                file.write("no library")
            self.assertIn(f"ImportError: {path} can't be opened", self.found(WAVE_LIB_DIR=folder).stderr)
        with mock.patch.object(_library, "_find", return_value=ctypes.util.find_library("c")):
            with self.assertRaisesRegex(ImportError, "has no wave_untyped: it is another library"):
                library.__wrapped__()

    def test_no_library_to_install(self):
        """The install tells in one line that there is no library, or that its folder is named by a relative path."""
        code = "import wheel_builder; wheel_builder.build_wheel('/nowhere')"
        for folder in ("/nowhere", "tests"):
            with mock.patch.dict(os.environ, WAVE_LIB_DIR=folder):
                said = subprocess.run([sys.executable, "-B", "-c", code], cwd=TOP, capture_output=True, text=True)
            told = f"wasm-wave: WAVE_LIB_DIR={folder} is not the absolute path of a folder that has libwave.so.0\n"
            self.assertEqual((said.returncode, said.stderr), (1, told))

    def test_version(self):
        self.assertRegex(wave.library_version(), r"^\d+\.\d+\.\d+$")


class Calls(unittest.TestCase):
    def test_large_answers(self):
        """An answer of any length is taken, by a second call where the first one's buffer is too small."""
        for length in (0, 1, 500, 600, 2_000, 70_000, 200_001):
            text = "[" + ", ".join(["[]"] * length) + "]"
            self.assertEqual(wave.loads("list<list<u8>>", text), [[]] * length)
            self.assertEqual(wave.dumps("list<list<u8>>", [[]] * length), text)

    def test_no_memory(self):
        def refuses(*arguments):
            return _library.NO_MEMORY

        for name, call in (
            ("wave_read", lambda: wave.loads("u8", "1")),
            ("wave_write", lambda: wave.dumps("u8", 1)),
            ("wave_untyped", lambda: wave.untyped("1")),
            ("wave_type_open", lambda: Type("list<u8, 12345>")),
        ):
            with mock.patch.object(library(), name, refuses), self.assertRaises(MemoryError):
                call()

    def test_another_version(self):
        def refuses(*arguments):
            return 99

        with mock.patch.object(library(), "wave_write", refuses), self.assertRaisesRegex(RuntimeError, "another version"):
            wave.dumps("u8", 1)
        decode = Type("list<u8>")._decoders[0]
        for tape in (b"", b"\2" + bytes(8), b"\1", b"\1" + bytes(9), b"\1" + b"\xff" * 8):
            with self.assertRaises(NoTape):
                read_tape(decode, tape)

    def test_damaged_tapes(self):
        """A tape of another library is read as some type, or refused as of another version."""
        drawn = random.Random(5)
        for spelled, begin in (("record { a: list<u8, 3>, b: variant { c, d(map<u8, char>) } }", type_at), ("func(a: u8) -> bool", func_at)):
            ty = (Type if begin is type_at else wave.Func)(spelled)
            tape = ty._told(ty._calls.tape, length=99)
            for _ in range(1000):
                damaged = bytearray(tape[: drawn.randrange(len(tape) + 1)])
                for _ in range(drawn.randrange(3)):
                    damaged[drawn.randrange(max(1, len(damaged))) :][:1] = bytes([drawn.randrange(256)])
                try:
                    read_tape(begin, bytes(damaged))
                except NoTape:
                    pass


class Handles(unittest.TestCase):
    """Each handle is used and closed on the thread that opened it."""

    def setUp(self):
        self.opened, self.closed, self.misused = [], [], []
        for name in ("wave_type_open", "wave_type_close", "wave_read"):
            patched = mock.patch.object(library(), name, self.watched(name, getattr(library(), name)))
            patched.start()
            self.addCleanup(patched.stop)

    def watched(self, name, function):
        """The function, of whose handles is noted on which thread they are opened, closed and used."""

        def call(*arguments):
            parts = next(it._obj for it in arguments if isinstance(getattr(it, "_obj", None), Parts))
            here, before = threading.get_ident(), parts.at
            status = function(*arguments)
            if name == "wave_type_open" and status == _library.OK:
                self.opened.append((parts.at, here))
            elif name == "wave_type_close":
                self.closed.append((before, here))
            elif name == "wave_read" and (before, here) not in self.opened:
                self.misused.append((before, here))
            return status

        return call

    def on_threads(self, count, work):
        threads = [threading.Thread(target=work) for _ in range(count)]
        for thread in threads:
            thread.start()
        for thread in threads:
            thread.join()

    def test_threads(self):
        types, begun = [Type("list<u16, 1>"), Type("list<s16>")], threading.Barrier(4)
        del self.opened[:]

        def work():
            begun.wait()
            for _ in range(20):
                for ty in types:
                    self.assertEqual(wave.loads(ty, "[1]"), [1])

        self.on_threads(4, work)
        self.assertEqual(len(self.opened), 8)
        self.assertEqual((sorted(self.opened), self.misused), (sorted(self.closed), []))

    def test_too_many_types(self):
        def work():
            for length in range(_handles.MOST_OPEN + 10):
                wave.loads(f"option<list<u8, {length}>>", "none")
            self.assertEqual(len(self.closed), 10)

        self.on_threads(1, work)
        self.assertEqual(sorted(self.opened), sorted(self.closed))

    def test_errors_keep_no_handle(self):
        """An error that is handed to another thread doesn't keep a type open."""
        kept = []

        def work():
            for spelled, text in (("list<u32, 1>", "x"), ("list<u9>", "")):
                try:
                    wave.loads(spelled, text)
                except wave.WaveError as error:
                    kept.append(error)

        self.on_threads(1, work)
        gc.collect()
        self.assertEqual(len(kept), 2)
        self.assertEqual(self.opened, self.closed)


class Threads(unittest.TestCase):
    def test_many(self):
        """Threads share types, each with handles of its own, and none disturbs another."""
        drawn = random.Random(4)
        nodes = [some_type(drawn, 4) for _ in range(20)]
        shared = [(Type(str(node)), [some_value(drawn, node) for _ in range(5)]) for node in nodes]
        begun, failed = threading.Barrier(8), []

        def work(seed):
            order = random.Random(seed)
            try:
                begun.wait()
                for _ in range(100):
                    ty, values = order.choice(shared)
                    value = order.choice(values)
                    if wave.loads(ty, wave.dumps(str(ty), value)) != value:
                        failed.append(f"{ty}: {value}")
                    try:
                        wave.loads(ty, "(")
                        failed.append(f"{ty}: (")
                    except wave.WaveError:
                        pass
            except Exception as error:  # what else is raised on a thread would go unseen
                failed.append(repr(error))

        threads = [threading.Thread(target=work, args=(seed,)) for seed in range(8)]
        for thread in threads:
            thread.start()
        for thread in threads:
            thread.join()
        self.assertEqual(failed, [])


if __name__ == "__main__":
    unittest.main()
