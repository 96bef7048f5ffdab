#!/usr/bin/env python3
"""The varied texts of the benchmark, made by chance of a seed: each value in one is another, so the processor can't learn a text's tokens
by heart, as it can those of the repeated texts of texts.py. The same seed makes the same texts, and none depends on what others there
are. Six of them have the same data as JSON too, spelled as `serde_json` writes it.

    bench/varied.py SIZE [SEED]     prints all texts, first the repeated ones, as the programs read them, and on standard error the seed

With the size 10 these are crates/wave_bench/stdin, which the gate checks."""
import json
import random
import sys

import texts

SEED = 1
WORDS = """able acid aged also area army away baby back ball band bank base bath bear beat been beer bell belt best bill bird blow blue boat
body bone book boot born both bowl bulk burn bush busy call calm came camp card care case cash cast cell chat chip city club coal coat code
cold come cook cool cope copy core cost crew crop dark date dawn days dead deal dean dear debt deep deny desk dial diet disc disk does done
door dose down draw dress drive early earth eight enemy entry equal error event every exact faith false-alarm fault field first flash fleet
floor fluid focus force frame fresh front fruit glass globe grand grant grass great green group guide heart heavy horse hotel house image
index inner input issue joint judge known label large laser later laugh layer learn lease least leave legal level light limit local logic""".split()
# Words of other scripts, none with a scalar that is escaped.
FOREIGN_WORDS = "naïve café Übung señor łódź λόγος μέτρο слово книга дерево 日本語 言葉 ひらがな カタカナ 한국어 שלום 👋 🙂 ∑ € ½".split()
GIVEN_NAMES = "Ada Alan Barbara Brian Donald Edsger Frances Grace John Katherine Margaret Tony Zoë Łukasz Søren Нина Ελένη 花子".split()
FAMILY_NAMES = "Lovelace Turing Liskov Kernighan Knuth Dijkstra Allen Hopper Backus Johnson Hamilton Hoare O'Neil Núñez Wójcik Петрова Παππάς 山田".split()
# How the scalars of these texts that are escaped are written.
ESCAPES = {"\\": "\\\\", '"': '\\"', "'": "\\'", "\t": "\\t", "\n": "\\n", "\r": "\\r", "\u001b": "\\u{1b}", "\u0301": "\\u{301}"}


class Chance:
    """Choices by a seed. Of Python's generator it takes only `random`, which answers the same in each version."""

    def __init__(self, seed):
        self.random = random.Random(seed).random

    def holds(self, share=0.5):
        """Whether something holds that does in this share of all cases."""
        return self.random() < share

    def below(self, bound):
        """A whole number from 0, each as likely as another."""
        return int(self.random() * bound)

    def between(self, least, most):
        return least + self.below(most - least + 1)

    def number(self, bits):
        """A whole number of at most so many bits, small ones as likely as large ones."""
        return self.below(1 << self.between(1, bits))

    def signed(self, bits):
        number = self.number(bits - 1)
        return -number if self.holds() else number

    def one_of(self, items):
        return items[self.below(len(items))]

    def some_of(self, items):
        """Few or many of the items, in their order."""
        share = self.random()
        return [it for it in items if self.holds(share)]

    def shuffled(self, items):
        return [it for _, it in sorted([(self.random(), it) for it in items])]

    def distinct(self, made, count):
        """So many things that are made, none of them twice."""
        kept = {}
        while len(kept) < count:
            kept[made(self)] = None
        return list(kept)


# Words and strings.


def phrase(chance, most, between):
    """Some words."""
    return between.join(chance.one_of(WORDS) for _ in range(chance.between(1, most)))


def label(chance):
    return phrase(chance, 3, "-")


def labels(chance, count):
    return chance.distinct(label, count)


def sentence(chance):
    """Words, one in 16 of them of another script, and one in 16 with a scalar that is escaped behind it."""
    parts = []
    for _ in range(chance.between(1, 12)):
        parts.append(chance.one_of(FOREIGN_WORDS if chance.holds(1 / 16) else WORDS))
        if chance.holds(1 / 16):
            parts[-1] += chance.one_of(list(ESCAPES))
    return " ".join(parts)


def quoted(text, mark='"'):
    """The text between quotes, as it is written."""
    return mark + "".join(ESCAPES.get(it, it) for it in text) + mark


def listed(items):
    return f"[{', '.join(items)}]"


def braced(items):
    return f"{{{', '.join(items)}}}"


def as_json(data):
    """The data as `serde_json` writes it."""
    return json.dumps(data, ensure_ascii=False, separators=(",", ":"))


# Values of the types that parts have.


def char(chance):
    """A char's text: mostly a letter, at times of another script, at times escaped."""
    letters = FOREIGN_WORDS if chance.holds(1 / 8) else WORDS
    return quoted(chance.one_of(list(ESCAPES)) if chance.holds(1 / 16) else chance.one_of(chance.one_of(letters)), "'")


PARTS = {
    "bool": lambda chance: chance.one_of(["true", "false"]),
    "u8": lambda chance: str(chance.below(256)),
    "s16": lambda chance: str(chance.signed(16)),
    "u32": lambda chance: str(chance.number(32)),
    "s64": lambda chance: str(chance.signed(64)),
    "char": char,
    "string": lambda chance: quoted(phrase(chance, 3, " ")),
    "list<u8>": lambda chance: listed(str(chance.below(256)) for _ in range(chance.below(6))),
}


def with_parts(names):
    """The names with types of parts, in turn."""
    return [(name, list(PARTS)[i % len(PARTS)]) for i, name in enumerate(names)]


# The texts: the type, the text, and of some the data that JSON has too. They have so many items.


def any_order(chance, count):
    """Records of 24 options, of which few or many are there, in any order; the payload of one in two stands alone."""
    fields = with_parts(labels(chance, 24))
    values = []
    for _ in range(count):
        made = [(name, PARTS[ty](chance)) for name, ty in chance.shuffled(chance.some_of(fields))]
        values.append(braced(f"{name}: {value if chance.holds() else f'some({value})'}" for name, value in made) if made else "{:}")
    return f"list<record{braced(f'{name}: option<{ty}>' for name, ty in fields)}>", listed(values)


def whole_numbers(ty, number):
    """What makes a text of numbers at the type."""

    def made(chance, count):
        data = [number(chance) for _ in range(count)]
        return f"list<{ty}>", listed(map(str, data)), data

    return made


def chars(chance, count):
    return "list<char>", listed(char(chance) for _ in range(count))


def enums(chance, count):
    cases = labels(chance, 40)
    return f"list<enum{braced(cases)}>", listed(chance.one_of(cases) for _ in range(count))


def flags(chance, count):
    """Sets of flags, in the type's order, as they are written."""
    names = labels(chance, 32)
    return f"list<flags{braced(names)}>", listed(braced(chance.some_of(names)) for _ in range(count))


def grid(chance, count):
    """Rows of 32 numbers."""
    data = [[chance.number(16) for _ in range(32)] for _ in range(count)]
    return "list<list<u16>>", listed(listed(map(str, row)) for row in data), data


def integer_keys(chance, count):
    keys = chance.distinct(lambda it: it.number(32), count)
    return "map<u32, string>", braced(f"{key}: {PARTS['string'](chance)}" for key in keys)


def string_keys(chance, count):
    keys = chance.distinct(lambda it: f"{phrase(it, 2, ' ')} {it.number(16)}", count)
    data = {key: chance.number(32) for key in keys}
    return "map<string, u32>", braced(f"{quoted(key)}: {value}" for key, value in data.items()), data


def nested(chance, count):
    """Results of options of results, of each shape."""

    def optional(value):
        return "none" if chance.holds(1 / 4) else f"some({value})"

    def one():
        number, text = PARTS["u8"](chance), PARTS["string"](chance)
        if chance.holds(1 / 4):
            return f"err({optional(text)})"
        inner = f"ok({number})" if chance.holds() else f"err({text})"
        return f"ok({optional(inner)})"

    return "list<result<option<result<u8, string>>, option<string>>>", listed(one() for _ in range(count))


def people(chance, count):
    """Records with strings and lists; the field `on` is left out where it is none."""
    data = []
    for _ in range(count):
        name = f"{chance.one_of(GIVEN_NAMES)} {chance.one_of(FAMILY_NAMES)}"
        person = {"name": name, "age": chance.below(100), "tags": [chance.one_of(WORDS) for _ in range(chance.below(5))]}
        data.append({**person, "on": chance.holds()} if chance.holds() else person)
    return f"list<{texts.PERSON}>", listed(map(person_text, data)), data


def person_text(person):
    fields = [f"name: {quoted(person['name'])}", f"age: {person['age']}", f"tags: {listed(map(quoted, person['tags']))}"]
    return braced(fields + ([f"on: some({str(person['on']).lower()})"] if "on" in person else []))


def strings(chance, count):
    data = [sentence(chance) for _ in range(count)]
    return "list<string>", listed(map(quoted, data)), data


def tuples(chance, count):
    parts = ["u8", "string", "bool", "char", "s64"]
    return f"list<tuple<{', '.join(parts)}>>", listed(f"({', '.join(PARTS[ty](chance) for ty in parts)})" for _ in range(count))


def variants(chance, count):
    """Cases of which one in three has no payload."""
    cases = [(name, ty if i % 3 else None) for i, (name, ty) in enumerate(with_parts(labels(chance, 20)))]

    def one():
        name, ty = chance.one_of(cases)
        return f"{name}({PARTS[ty](chance)})" if ty else name

    return f"list<variant{braced(f'{name}({ty})' if ty else name for name, ty in cases)}>", listed(one() for _ in range(count))


# How each text is made, and how many items it has for each of its size, which makes it some 40 to 80 bytes for each.
MADE = {
    "any-order": (any_order, 0.15),
    "bytes": (whole_numbers("u8", lambda chance: chance.below(256)), 10),
    "chars": (chars, 8),
    "enums": (enums, 5),
    "flags": (flags, 0.4),
    "grid": (grid, 0.25),
    "integer-keys": (integer_keys, 2),
    "map": (string_keys, 2),
    "nested": (nested, 3),
    "numbers": (whole_numbers("u32", lambda chance: chance.number(32)), 7),
    "people": (people, 0.7),
    "s64": (whole_numbers("s64", lambda chance: chance.signed(64)), 4),
    "strings": (strings, 1.2),
    "tuples": (tuples, 1.4),
    "u64": (whole_numbers("u64", lambda chance: chance.number(64)), 4),
    "variants": (variants, 2.5),
}
# The texts whose data `serde_json` is measured on.
AS_JSON = ("bytes", "grid", "map", "numbers", "people", "strings")


def cases(size, seed=SEED):
    """The varied texts of this size, by their names."""
    made = []
    for name, (making, items) in MADE.items():
        types, text, *data = making(Chance(f"{seed} {name}"), max(1, int(size * items)))
        made.append(texts.Case(name, types, text, as_json(data[0]) if name in AS_JSON else ""))
    return made


def main():
    size = int(sys.argv[1])
    seed = int(sys.argv[2]) if len(sys.argv) > 2 else SEED
    print(f"seed {seed}", file=sys.stderr)
    for case in texts.cases(size) + cases(size, seed):
        sys.stdout.buffer.write(case.given() + b"\n")


if __name__ == "__main__":
    main()
