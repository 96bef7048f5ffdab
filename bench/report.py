"""The tables of the benchmark, in markdown: which there are, their rows, and the ratios in them."""
import argparse
import re
import typing

import texts
import varied
from measured import Failed, Job


class Unit(typing.NamedTuple):
    """What figures are of, and how they are shown."""

    by: str
    figure: str
    ratio: str
    decimals: int

    def shown(self, figure, length):
        return f"{figure / length:.{self.decimals}f}"


CLOCK = Unit("by the clock", "Nanoseconds", "speed", 2)
INSTRUCTIONS = Unit("by instructions", "Instructions", "ratio", 1)
UNITS = (CLOCK, INSTRUCTIONS)
REPEATED, VARIED, JSON = "Repeated texts", "Varied texts", "The same data as JSON"
KINDS = (REPEATED, VARIED, JSON)


class Table:
    """A table: its heading, what is said below it, its columns, and for each row the jobs whose figures it has, and what makes its cells of
    these."""

    def __init__(self, heading, said, columns, rows):
        self.heading, self.said, self.columns, self.rows = heading, said, columns, rows
        self.widths = [max(8, len(it)) for it in columns]
        self.widths[0] = 14

    def line(self, cells):
        shown = [f"{cell:>{width}}" for cell, width in zip(cells, self.widths)]
        return f"| {' | '.join([cells[0].ljust(self.widths[0]), *shown[1:]])} |"

    def head(self):
        """All that stands above the rows."""
        marks = ["-" * self.widths[0]] + ["-" * (width - 1) + ":" for width in self.widths[1:]]
        return f"## {self.heading}\n\n{self.said}\n\n{self.line(self.columns)}\n{self.line(marks)}"

    def print(self, measured):
        """Prints the table; `measured` gives the figures of each row's jobs, in turn."""
        print(f"\n{self.head()}", flush=True)
        try:
            for (_, cells_of), figures in zip(self.rows, measured([jobs for jobs, _ in self.rows])):
                print(self.line(cells_of(figures)), flush=True)
        except Failed as failed:
            raise SystemExit(str(failed)) from None


def heading(kind, unit):
    return f"{kind}, {unit.by}"


def beside_rust(kind, said, cases, chosen, unit):
    """The table of these texts beside the Rust crate."""
    columns = ["text", "bytes"]
    for call in ("read", "untyped", "write"):
        columns += [f"{call}: Rust", "Rattle", unit.ratio]

    def row(case):
        jobs = [Job(program, call, case.given()) for call in texts.calls_of(case.name) for program in (chosen.rust, chosen.rattle)]

        def cells_of(figures):
            cells = [case.name, str(case.length())]
            for one, other in zip(figures[::2], figures[1::2]):
                cells += [unit.shown(one, case.length()), unit.shown(other, case.length()), f"{one / other:.2f}"]
            return cells + [""] * (len(columns) - len(cells))

        return jobs, cells_of

    return Table(heading(kind, unit), f"{unit.figure} for a byte of the text. {said}", columns, [row(it) for it in cases])


def beside_json(said, cases, chosen, unit):
    """The table of these texts beside `serde_json`, which reads and writes the same data as JSON."""
    columns = ["text", "bytes", "of JSON", "read: JSON", "Rattle", unit.ratio, "untyped", unit.ratio, "write: JSON", "Rattle", unit.ratio]

    def row(case):
        jobs = [Job(chosen.json, call, case.given_as_json()) for call in ("read", "write")]
        jobs += [Job(chosen.rattle, call, case.given()) for call in ("read", "untyped", "write")]
        length = len(case.json.encode())

        def cells_of(figures):
            read, write, *ours = figures
            speeds = [f"{one / other:.2f}" for one, other in zip((read, read, write), ours)]
            shown = [unit.shown(it, length) for it in figures]
            return [case.name, str(case.length()), str(length), shown[0], shown[2], speeds[0], shown[3], speeds[1], shown[1], shown[4], speeds[2]]

        return jobs, cells_of

    return Table(heading(JSON, unit), f"{unit.figure} for a byte of the JSON, also those of WAVE. {said}", columns, [row(it) for it in cases])


def tables(chosen, unit):
    """All tables, by the programs, sizes, names and seed that are chosen; without a program over `serde_json` not the one beside it."""

    def of_sizes(cases):
        made = sorted((case.name, size, case) for size in chosen.sizes for case in cases(size))
        return [case for name, _, case in made if not chosen.only or name in chosen.only]

    yield beside_rust(REPEATED, "Those of call-log are of `call`.", of_sizes(texts.cases), chosen, unit)
    said, cases = f"Made by the seed {chosen.seed}.", of_sizes(lambda size: varied.cases(size, chosen.seed))
    yield beside_rust(VARIED, said, cases, chosen, unit)
    if chosen.json:
        yield beside_json(said, [it for it in cases if it.json], chosen, unit)


def arguments(described, sizes):
    """The arguments that bench/compare and bench/count have in common."""

    def numbers(word):
        return [int(it) for it in word.split(",")]

    parser = argparse.ArgumentParser(description=described, formatter_class=argparse.RawDescriptionHelpFormatter)
    parser.add_argument("rust", metavar="RUST", help="the program over the Rust crate, which bench/build-rust builds")
    parser.add_argument("rattle", metavar="RATTLE", help="this library's, crates/wave_bench/out/wave_bench")
    parser.add_argument("json", metavar="JSON", nargs="?", help="the program over serde_json, which bench/build-json builds")
    parser.add_argument("--sizes", type=numbers, default=sizes, help=f"of the texts, about how many items they have ({','.join(map(str, sizes))})")
    parser.add_argument("--seed", type=int, default=varied.SEED, help=f"of the varied texts ({varied.SEED})")
    parser.add_argument("--only", type=lambda it: it.split(","), default=[], metavar="NAMES", help="texts, with commas between their names")
    return parser


class Ratio(typing.NamedTuple):
    """A ratio in a table, as it stands there."""

    text: str
    bytes: str
    call: str
    ratio: str


def ratios(document, kind, unit):
    """The ratios in the document's table of this kind of texts, row by row."""
    body = re.search(rf"^## {re.escape(heading(kind, unit))}\n((?:(?!#).*\n)*)", document, re.M)
    rows = [[cell.strip() for cell in line.strip("|").split("|")] for line in (body[1] if body else "").splitlines() if line.startswith("|")]
    found = []
    for cells in rows[2:]:
        shown = [cell for head, cell in zip(rows[0], cells) if head == unit.ratio]
        found += [Ratio(cells[0], cells[1], call, ratio) for call, ratio in zip(texts.calls_of(cells[0]), shown)]
    return found
