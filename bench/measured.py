"""What calls take of the programs of the benchmark, by the clock and in instructions. A job is a program, the call it makes, and the case
it reads, as given()."""
import os
import re
import shutil
import subprocess
import tempfile
import typing

# What the allocator of the C library, which all programs use, reads: it keeps what is freed. Else the kernel hands out the pages of a large
# text's values anew for some of the loops and not for others.
KEEPING = {**os.environ, "GLIBC_TUNABLES": "glibc.malloc.trim_threshold=1073741824:glibc.malloc.mmap_threshold=33554432"}
PERF = ["perf", "stat", "-x,", "-e", "instructions:u", "--"]
# A call is counted so often that it takes about so many bytes.
COUNTED_BYTES = 20_000


class Job(typing.NamedTuple):
    program: str
    call: str
    given: bytes

    def words(self, loops):
        return [self.program, self.call, str(loops)]


class Failed(Exception):
    """That a program failed on a case, whose name it has, and what the program told."""

    def __init__(self, words, given, told):
        case = given.split(b" ", 1)[0].decode()
        super().__init__(f"{' '.join(words)} failed on {case}: {told.decode(errors='replace')[-300:]}")


def spent(job, loops):
    """Nanoseconds of one call."""
    done = subprocess.run(job.words(loops), input=job.given, capture_output=True, env=KEEPING)
    if done.returncode:
        raise Failed(job.words(loops), job.given, done.stderr)
    return int(done.stdout.split()[-1]) / max(1, loops)


def times(jobs, runs, seconds):
    """Nanoseconds of one call of each job: the best of the runs. The jobs run in turn, each run for about the number of seconds."""
    loops = [max(1, int(seconds * 1e9 / max(1000, spent(it, 3)))) for it in jobs]
    least = [float("inf")] * len(jobs)
    for _ in range(runs):
        for i, job in enumerate(jobs):
            least[i] = min(least[i], spent(job, loops[i]))
    return least


def counted_by_perf(words, given):
    """The instructions of the program, or None where perf does not count."""
    if shutil.which("perf") is None:
        return None
    done = subprocess.run(PERF + words, input=given, stdout=subprocess.DEVNULL, stderr=subprocess.PIPE)
    found = re.search(rb"^(\d+),", done.stderr, re.M)
    return int(found[1]) if done.returncode == 0 and found else None


def counted_by_valgrind(words, given):
    """The instructions of the program, by callgrind."""
    with tempfile.NamedTemporaryFile() as out:
        tool = ["valgrind", "--tool=callgrind", f"--callgrind-out-file={out.name}"]
        done = subprocess.run(tool + words, input=given, stdout=subprocess.DEVNULL, stderr=subprocess.PIPE)
    found = re.search(rb"Collected : (\d+)", done.stderr)
    if done.returncode or not found:
        raise Failed(words, given, done.stderr)
    return int(found[1])


def counter():
    """What counts instructions on this machine."""
    if counted_by_perf(["true"], b""):
        return counted_by_perf
    if shutil.which("valgrind"):
        return counted_by_valgrind
    raise SystemExit("neither perf nor valgrind counts here: both are packages of Debian (linux-perf, valgrind)")


def instructions(jobs, count):
    """The instructions of one call of each job. Those of a run that makes no call are subtracted, so the start, the type and the value to
    be written are not among them."""
    taken = []
    for job in jobs:
        loops = max(1, COUNTED_BYTES // len(job.given))
        whole, start = (count(job.words(it), job.given) for it in (loops, 0))
        taken.append((whole - start) / loops)
    return taken
