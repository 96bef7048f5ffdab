"""The C library, as tests/c calls it: the program of tests/c.c, and what include/wave.h declares."""
import os
import re
import shutil
import struct
import subprocess

HERE = os.path.dirname(os.path.realpath(__file__))
ROOT = os.path.dirname(HERE)
OK, TOO_SMALL, NO_MEMORY, NOT_UTF8, NO_TYPE, REFUSED, NO_TAPE, CLOSED = range(8)
ROOM = 1 << 16
MOST_LEVELS = 1000


def read(path):
    with open(os.path.join(ROOT, path), encoding="utf-8") as file:
        return file.read()


# ---- the header

HEADER = read("include/wave.h")
BARE = re.sub(r"/\*.*?\*/", "", HEADER, flags=re.S)


# the numbers of each enum, by their names
ENUMS = {name: {word: int(number) for word, number in re.findall(r"(\w+) = (\d+)", body)} for name, body in re.findall(r"\benum (\w+) \{(.*?)\}", BARE, re.S)}


def declared():
    """What each call returns, and the type and the name of each parameter."""
    for result, name, taken in re.findall(r"^(\w+) (wave_\w+)\(([^)]*)\);", BARE, re.M):
        words = [" ".join(it.split()) for it in taken.split(",") if it.strip() != "void"]
        yield name, result, [re.fullmatch(r"(.*?) ?(\w+)", it).groups() for it in words]


# the parameters of each call, by its name without `wave_`, as types by names
CALLS = {name[5:]: {word: ty for ty, word in taken} for name, result, taken in declared()}
# the handle, of a type or a func, at which a call answers
HANDLES = {name: taken["handle"][5:9] for name, taken in CALLS.items() if "handle" in taken and "out" in taken}


def kind_of(name):
    """What `first` spells where the call is made: a type or a func."""
    return "func" if "func" in CALLS[name] or "func" in CALLS[name].get("handle", "") else "type"


# ---- calls


class Died(Exception):
    """What was called has ended before it answered."""


class Library:
    """The program of tests/c.c, over the library in the folder."""

    def __init__(self, folder, at):
        program = os.path.join(at, "calls")
        words = ["cc", "-std=c11", "-g", "-O1", "-Wall", "-Wextra", "-Werror", "-fsanitize=address,undefined", "-I", folder]
        words += [os.path.join(HERE, "c.c"), os.path.join(folder, "libwave.a"), "-Wl,--wrap=malloc,--wrap=realloc,--wrap=free", "-pthread", "-o", program]
        if not shutil.which("cc") or subprocess.run(words).returncode:
            raise Died("cc is missing, or doesn't compile tests/c.c")
        self.running = subprocess.Popen([program], stdin=subprocess.PIPE, stdout=subprocess.PIPE)

    def call(self, name, first=b"", second=b"", levels=0, room=ROOM, slot=0, fail_at=0, fail_on=0, stack=0):
        """What the call returns and reports, and the bytes that it wrote. `first` spells a type, `second` is a value's text or tape."""
        to, back = self.running.stdin, self.running.stdout
        to.write(struct.pack("=24s8I", name.encode(), slot, levels, fail_at, fail_on, stack, len(first), len(second), room) + first + second)
        to.flush()
        head = back.read(56)
        if len(head) < 56:
            raise Died(f"the program ended with {self.running.wait()} in {name} of {second[:60]} at {first[:60]}, {levels} levels, {room} bytes, {stack} of stack")
        status, kind, requests, kept, large, _, live, length, start, end = struct.unpack("=6Iq3Q", head)
        bytes_ = back.read(length) if status == OK and length <= room else b""
        return Said(status, kind, length, start, end, bytes_, kept and not large, requests, live)

    def at(self, name, first=b"", second=b"", levels=0, **how):
        """So, and where the call takes a handle, at one that is opened before, and closed behind where the call opens it. It has to hold
        the same then, and no memory to be left."""
        kind, closing = HANDLES.get(name), f"{kind_of(name)}_close"
        if not kind:
            said = self.call(name, first, second, levels, **how)
            closed = self.call(closing, stack=how.get("stack", 0))
            said.kept = said.kept and closed.live == 0
            return said
        opened, held = self.call(f"{kind}_open", first, levels=MOST_LEVELS), self.call(f"{kind}_text")
        said = self.call(name, b"", second, levels, **how)
        left, closed = self.call(f"{kind}_text"), self.call(closing)
        said.kept = said.kept and opened.is_answer(b"") and held.status == OK and held.told == left.told and closed.live == 0
        return said

    def end(self):
        """The status that the program ends with, where it has been asked for all."""
        self.running.stdin.close()
        return self.running.wait()


class Said:
    """What a call said, and whether it kept what it may not change."""

    def __init__(self, status, kind, length, start, end, bytes_, kept, requests, live):
        self.told = (status, kind, length, start, end, bytes_)
        self.status, self.kind, self.length, self.start, self.end, self.bytes = self.told
        self.kept, self.requests, self.live = kept, requests, live

    def is_answer(self, bytes_):
        return self.kept and self.told == (OK, 0, len(bytes_), 0, 0, bytes_)

    def is_refusal(self, status, kind=0, start=0, end=0):
        return self.kept and self.told == (status, kind, 0, start, end, b"")
