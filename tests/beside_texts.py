"""The cases of tests/beside-rust: random types and functions, and texts at them, right ones, ones with faults of type, and damaged ones."""
from typing import NamedTuple

NAMES = "a b c ab a-b A B-1 x not-found a-1 true false some none ok err inf nan record u8".split()
# for types of many names
MANY = [*NAMES, *(f"{front}{i}" for front in ("n", "long-name-of-a-field-", "N-") for i in range(30))]
KEYWORDS = set("true false some none ok err inf nan".split())
BITS = (8, 16, 32, 64)
INTEGERS = {**{f"s{n}": (-(1 << n - 1), (1 << n - 1) - 1) for n in BITS}, **{f"u{n}": (0, (1 << n) - 1) for n in BITS}}
SIMPLE = ["bool", "char", "char", "string", "string", "string", *INTEGERS]
GAPS = ["", "", "", " ", " ", "\n", "\t", "\r\n", "  ", " // c\n", "//\n", "// \u2603 \"{\r\n", "//a//b\n \n"]
SCALARS = "abzAZ09 -_.:,(){}[]\"'\\\t\r\n\0\x7f\x85\xa0\xad\xe9\u0301\u0903\u09be\u200b\u200d\u2028\u202e\u2603\u3000\ufe0f\ufeff\uff9e"
SCALARS += "\ue000\uffff\U0001f44b\U0001f3fb\U000e0100\U0010ffff"
BAD_ESCAPES = ["\\u{d800}", "\\u{DFFF}", "\\u{110000}", "\\u{ffffff}"]
TOKENS = [
    *"{}()[]:,%@-/", *NAMES, "%a", "%true", "%%a", "a-", "aB", "\u2603", "//", "// c\n",
    *"0 7 -0 01 300 -1 1.5 1e5 1e -inf -info 99999999999999999999".split(), "1." + "0" * 40,
    "'a'", "'ab'", "'abcd'", "'abcde'", "'a\n'", "''", "'\\q'", "'\\u{d800}'", "'\u2603\ufe0f'", f"'{4 * chr(0x2603)}'", f"'{5 * chr(0x2603)}'",
    '"a"', '""', '"\\u{110000}"', '"', '"a\\q"', '"a\nb"', '"\\u{1234567}"',
    '"""', '"""\n"""', '""""', '"""""', '"""\n  a\n b\n  """', '"""a\n"""', '"""\na"""',
]
BYTES = [it.encode() for it in ("(", ")", "[", "]", "{", "}", ":", ",", '"', "'", "\\", "%", "-", "//", "\n", '"""', "0", "\0", "\ufeff", "\x80")]
BYTES += [b"\xff", b"\xe2", b"\xf0\x9f", b"\xc0\x80", b"\xed\xa0\x80"]

# how many of a hundred cases are made so, and how many of a hundred texts
WAYS = {"read": 25, "param": 45, "params": 14, "value": 10, "call": 6}
KINDS = {"right": 22, "faults": 40, "damaged": 20, "damaged bytes": 8, "deep": 5, "wide": 5}
# how often there is a fault of type: one of these, less often at deep types
RATES = {"right": [0], "faults": [0.3, 0.6, 1], "damaged": [0, 0, 0.05], "damaged bytes": [0, 0, 0.05], "wide": [0, 0.01, 0.04]}


# Types: the word of a simple type, or a tuple of the word of the kind and its parts


def named(chance, most):
    return chance.sample(NAMES, chance.randint(1, most))


def type_of(chance, depth):
    """A type within so many levels."""
    if depth <= 1:
        return chance.choice([chance.choice(SIMPLE), chance.choice(SIMPLE), ("enum", named(chance, 4)), ("flags", named(chance, 5)), ("result", None, None)])

    def part():
        return type_of(chance, depth - chance.randint(1, 2))

    kind = chance.choice("list option option result result tuple tuple record record record variant map leaf".split())
    if kind in ("list", "option"):
        return kind, part()
    if kind == "result":
        return kind, *(part() if chance.random() < 0.7 else None for _ in range(2))
    if kind == "tuple":
        return kind, [part() for _ in range(chance.randint(1, 3))]
    if kind == "record":
        return kind, [(name, part()) for name in named(chance, 4)]
    if kind == "variant":
        return kind, [(name, part() if chance.random() < 0.6 else None) for name in named(chance, 4)]
    if kind == "map":
        return kind, chance.choice(["bool", "bool", *SIMPLE]), part()
    return type_of(chance, 1)


def wide_type(chance):
    """A type of many names."""
    names = chance.sample(MANY, chance.randint(9, 70))
    cases = [(name, chance.choice([None, type_of(chance, 1)])) for name in names]
    fields = [(name, chance.choice([type_of(chance, 1), ("option", chance.choice(SIMPLE))])) for name in names]
    ty = chance.choice([("enum", names), ("variant", cases), ("flags", names), ("flags", names), *[("record", fields)] * 4])
    return chance.choice([ty, ("list", ty), ("option", ty)])


def separated(parts):
    return [token for i, part in enumerate(parts) for token in ([","] if i else []) + part]


def type_tokens(ty):
    if isinstance(ty, str):
        return [ty]
    kind, *parts = ty
    if kind == "tuple":
        return [kind, "<", *separated([type_tokens(it) for it in parts[0]]), ">"]
    if kind == "result":
        inner = [["_"] if it is None else type_tokens(it) for it in parts]
        inner = inner[: 2 if parts[1] else 1 if parts[0] else 0]
        return [kind, "<", *separated(inner), ">"] if inner else [kind]
    if kind in ("enum", "flags"):
        return [kind, "{", *separated([[it] for it in parts[0]]), "}"]
    if kind == "record":
        return [kind, "{", *separated([[name, ":", *type_tokens(it)] for name, it in parts[0]]), "}"]
    if kind == "variant":
        return [kind, "{", *separated([[name] if it is None else [name, "(", *type_tokens(it), ")"] for name, it in parts[0]]), "}"]
    return [kind, "<", *separated([type_tokens(it) for it in parts]), ">"]


def laid_out(chance, tokens, wild):
    """The tokens with whitespace between."""
    if not wild:
        return "".join(token + " " * (token in (",", ":")) for token in tokens)
    return "".join(chance.choice(GAPS) + token for token in tokens) + chance.choice(GAPS)


# Values: lists of tokens


def escape(chance, scalar):
    """A spelling of the scalar by an escape."""
    short = {"\t": "t", "\n": "n", "\r": "r", "'": "'", '"': '"', "\\": "\\"}
    if scalar in short and chance.random() < 0.7:
        return "\\" + short[scalar]
    digits = f"{ord(scalar):{chance.choice(['x', 'X', '04x', '06X'])}}"
    return "\\u{" + digits + "}"


def scalar_of(chance):
    if chance.random() < 0.1:
        return chr(chance.choice([chance.randrange(0xD800), chance.randrange(0xE000, 0x110000), chance.randrange(0x300, 0x3000)]))
    return chance.choice(SCALARS)


def spelled(chance, scalar, escaped):
    """The scalar, escaped where it is one of these, and sometimes else."""
    return escape(chance, scalar) if scalar in escaped or chance.random() < 0.2 else scalar


class Speller:
    """Spells values, with faults of type at a rate; right ones at the rate 0."""

    def __init__(self, chance, rate):
        self.chance = chance
        self.rate = rate

    def wrong(self):
        return self.rate > 0 and self.chance.random() < self.rate

    def some(self, most):
        return range(self.chance.choice([0, 1, 1, 2, most]))

    def items(self, part):
        """A few items of the type, or many of a simple one."""
        return range(self.chance.randint(8, 60)) if isinstance(part, str) and self.chance.random() < 0.1 else self.some(4)

    def label(self, name):
        return name if self.chance.random() < 0.8 else "%" + name

    def case(self, name):
        return "%" + name if name in KEYWORDS else self.label(name)

    def closed(self, begin, parts, end):
        """The parts with commas between, and sometimes a last one."""
        last = [","] if parts and self.chance.random() < 0.15 else []
        return [begin, *separated(parts), *last, end]

    def value(self, ty):
        if self.wrong() and self.chance.random() < 0.4:
            ty = type_of(self.chance, 2)
        if isinstance(ty, str):
            return [{"bool": self.boolean, "char": self.char, "string": self.string}.get(ty, lambda: self.number(ty))()]
        kind, *parts = ty
        return getattr(self, "of_" + kind)(*parts)

    def boolean(self):
        return self.chance.choice(["true", "false"] + ["%true", "some", "inf"] * self.wrong())

    def number(self, ty):
        low, high = INTEGERS[ty]
        if self.wrong():
            return self.chance.choice([str(low - 1), str(high + 1), "-0", "1.0", "1e2", "inf", "-inf", "nan", str(high) + "0", "none"])
        return str(self.chance.choice([low, high, 0, 1, self.chance.randint(low, high), self.chance.randint(max(low, -20), 20 if low else 99)]))

    def char(self):
        if self.wrong():
            return self.chance.choice([f"'{it}'" for it in BAD_ESCAPES] + ['"a"', "a", "''", "'ab'"])
        return f"'{spelled(self.chance, scalar_of(self.chance), chr(92) + chr(39) + chr(10))}'"

    def inner(self, bad):
        """What stands between quotes, with a bad escape if it is wrong."""
        text = [spelled(self.chance, scalar_of(self.chance), '\\"\n') for _ in self.some(6)]
        if self.chance.random() < 0.05:
            text.insert(self.chance.randint(0, len(text)), self.chance.choice("a \u2603") * self.chance.randint(8, 80))
        if self.wrong():
            text.insert(self.chance.randint(0, len(text)), self.chance.choice(bad))
        return "".join(text)

    def string(self):
        return self.multiline() if self.chance.random() < 0.3 else f'"{self.inner(BAD_ESCAPES)}"'

    def line(self, indent):
        if self.wrong() or self.wrong():
            indent = self.chance.choice([indent[1:], "", " ", "\t", "\r"])
        return indent + self.inner(BAD_ESCAPES + ["\\", "\\q", "\\u{", "\\u{1234567}"]) + ("\r" if self.chance.random() < 0.2 else "")

    def multiline(self):
        indent = " " * self.chance.choice([0, 1, 1, 2, 4])
        first = self.chance.choice(["", "", "\r"] + ["a", " ", "\r\r", "\u2603"] * self.wrong())
        last = indent + self.chance.choice(["a", "\t", "\r", "\u2603", "\\"]) if self.wrong() else indent
        pieces = [first, *(self.line(indent) for _ in self.some(3)), last]
        if self.wrong():
            pieces = [self.chance.choice([first, last, first + last])]
        return '"""' + "\n".join(pieces) + '"""'

    def of_list(self, part):
        return self.closed("[", [self.value(part) for _ in self.items(part)], "]")

    def of_tuple(self, parts):
        if self.wrong():
            parts = self.chance.choice([parts[1:] or parts * 2, parts + parts[:1], parts[::-1]])
        return self.closed("(", [self.value(it) for it in parts], ")")

    def key(self, name):
        """A key of a record."""
        if self.wrong():
            return self.chance.choice(["1", '"a"', "'a'", '"""\n"""', "true", "zz", "a-c"])
        return self.label(name)

    def of_record(self, fields):
        kept = [it for it in fields if not (self.wrong() or it[1][0] == "option" and self.chance.random() < 0.4)]
        if self.wrong():
            kept.append((self.chance.choice(NAMES + ["zz"]), type_of(self.chance, 1)))
        if kept and (self.wrong() or self.rate > 0 and len(fields) > 8 and self.chance.random() < 0.3):
            kept.append(self.chance.choice(kept))
        self.chance.shuffle(kept)
        entries = [[self.key(name), ":", *self.value(it)] for name, it in kept]
        return self.closed("{", entries, "}") if entries else ["{", ":", "}"]

    def of_flags(self, names):
        kept = [it for it in names if self.chance.random() < 0.5]
        if self.wrong():
            kept += self.chance.choices(NAMES + names + ["zz"], k=self.chance.randint(1, 3))
        self.chance.shuffle(kept)
        return self.closed("{", [[self.label(it)] for it in kept], "}")

    def of_enum(self, names):
        if self.wrong():
            names = NAMES + ["zz"]
        return [(self.label if self.wrong() else self.case)(self.chance.choice(names))]

    def of_variant(self, cases):
        name, part = self.chance.choice(cases)
        if self.wrong():
            name = self.chance.choice(NAMES + ["zz"])
        if self.wrong():
            part = type_of(self.chance, 1) if part is None else None
        return [(self.label if self.wrong() else self.case)(name), *self.payload(part)]

    def payload(self, part):
        return [] if part is None else ["(", *self.value(part), ")"]

    def is_flat(self, part):
        return part is not None and part[0] not in ("option", "result") and self.chance.random() < 0.3

    def of_option(self, part):
        if self.wrong():
            other = type_of(self.chance, 1)
            flat = self.value(part)
            return self.chance.choice([["some", *self.payload(other)], ["none", "(", "1", ")"], ["some"], flat, flat, ["%none"]])
        if self.chance.random() < 0.25:
            return ["none"]
        return self.value(part) if self.is_flat(part) else ["some", *self.payload(part)]

    def of_result(self, ok, err):
        if self.is_flat(ok) or ok is not None and self.wrong():
            return self.value(ok)
        word, part = self.chance.choice([("ok", ok), ("err", err)])
        if self.wrong():
            part = type_of(self.chance, 1) if part is None else None
        return [word, *self.payload(part)]

    def of_map(self, key, part):
        entries = []
        for _ in self.items(part):
            again = entries and self.chance.random() < 0.2
            entries.append([self.respelled(self.chance.choice(entries)[0]) if again else self.map_key(key), ":", *self.value(part)])
        return self.closed("{", entries, "}") if entries else self.chance.choice([["{", "}"], ["{", ":", "}"]])

    def respelled(self, token):
        """The same key, perhaps in another spelling."""
        plain = token[0] in "\"'" and token[1].isalnum() and self.chance.random() < 0.5
        return token[0] + escape(self.chance, token[1]) + token[2:] if plain else token

    def map_key(self, key):
        if self.wrong():
            return self.chance.choice(["%true", "true", "inf"] if key == "bool" else ["a", "true", "nan", "1", "-1", '"a"', "'a'", "'\\u{d800}'", '"""\na"""'])
        return self.value(key)[0]


# Damage


def damaged(chance, tokens):
    """The tokens, damaged at one to four places."""
    tokens = list(tokens)
    for _ in range(chance.choice([1, 1, 1, 2, 3, 4])):
        at = chance.randint(0, len(tokens))
        end = min(len(tokens), at + chance.choice([1, 1, 1, 2, 3]))
        way = chance.randrange(7)
        if way == 0:
            del tokens[at:end]
        elif way == 1:
            tokens[at:at] = tokens[at:end]
        elif way == 2:
            tokens.insert(at, chance.choice(TOKENS))
        elif way == 3:
            tokens[at:end] = [chance.choice(TOKENS)]
        elif way == 4 and at < len(tokens):
            other = chance.randrange(len(tokens))
            tokens[at], tokens[other] = tokens[other], tokens[at]
        elif way == 5 and tokens:
            tokens[at:end] = [chance.choice(tokens)]
        elif chance.random() < 0.3:
            del tokens[at:]
    return tokens


def damaged_bytes(chance, text):
    """The bytes, damaged at one to three places."""
    text = bytearray(text)
    for _ in range(chance.choice([1, 1, 2, 3])):
        at = chance.randint(0, len(text))
        end = min(len(text), at + chance.randint(1, 4))
        way = chance.randrange(6)
        if way == 0 and at < len(text):
            text[at] ^= 1 << chance.randrange(7)
        elif way == 1:
            del text[at:end]
        elif way == 2:
            text[at:at] = text[at:end]
        elif way == 3:
            del text[at:]
        elif way == 4:
            text[at:at] = scalar_of(chance).encode()
        else:
            text[at:at] = chance.choice(BYTES)
    return bytes(text)


# Deep types and texts


def wrapped(chance, ty, tokens):
    """A type of one more level, and a value of it round the value."""
    kind = chance.choice(["list", "option", "flat", "tuple", "record", "variant", "ok", "err", "map"])
    if kind == "list":
        return (kind, ty), ["[", *tokens, "]"]
    if kind == "option":
        return (kind, ty), ["some", "(", *tokens, ")"]
    if kind == "flat" and ty[0] not in ("option", "result"):
        return ("option", ty), tokens
    if kind == "record":
        return (kind, [("a", ty)]), ["{", "a", ":", *tokens, "}"]
    if kind == "variant":
        return (kind, [("a", ty), ("ok", None)]), ["a", "(", *tokens, ")"]
    if kind == "ok":
        return ("result", ty, None), ["ok", "(", *tokens, ")"]
    if kind == "err":
        return ("result", None, ty), ["err", "(", *tokens, ")"]
    if kind == "map":
        return (kind, "u8", ty), ["{", "1", ":", *tokens, "}"]
    return ("tuple", [ty]), ["(", *tokens, ")"]


def deep(chance):
    """A type of up to 100 levels, and a text at it that may have too many."""
    ty = chance.choice(["u8", "bool", ("enum", ["a", "ok"])])
    more = chance.choice([0, 0, 0, 1, 2, 12])
    tokens = ["["] * more + Speller(chance, chance.choice([0, 0, 0.5])).value(ty) + ["]"] * more
    for _ in range(chance.choice([chance.randint(80, 97), chance.randint(95, 98), 98])):
        ty, tokens = wrapped(chance, ty, tokens)
    return ty, tokens


# Cases


class Case(NamedTuple):
    way: str
    kind: str
    # the types of the value or of the parameters, and the text of the type or of the function; none where no type is expected
    types: list
    spelled: str
    text: bytes


def func_name(chance, kind):
    name = chance.choice(["", "", "", "a:b/", "A-1:b/"]) + chance.choice(["f", "f-g", "true", "A"]) + chance.choice(["", "", "", ".x", "@1.0.0", ".b@0.1.20"])
    if kind.startswith("damaged") and chance.random() < 0.2:
        at = chance.randint(0, len(name))
        between = chance.choice([*"%.@/:- B\u2603", "01", "@1.2", "@01.0.0", "'ab'", ""])
        name = name[:at] + between + name[at + chance.randint(0, 1) :]
    return name


def params(chance, types, speller):
    """The tokens of values at the types of parameters, of which some may be left out or too many."""
    given = list(types)
    while given and (given[-1][0] == "option" and chance.random() < 0.4 or speller.wrong()):
        given.pop()
    if speller.wrong():
        given += [type_of(chance, 2)] * chance.randint(1, 2)
    return speller.closed("(", [speller.value(it) for it in given], ")")


def func_text(chance, types, wild):
    fields = [[name, ":", *type_tokens(ty)] for name, ty in zip(chance.sample(NAMES, len(types)), types)]
    results = chance.choice(["", "", " -> u8", " -> (a: string)"])
    return laid_out(chance, ["func", "(", *separated(fields), ")"], wild) + results


def made(chance, kind):
    """A type, and the tokens of a text at it."""
    if kind == "deep":
        return deep(chance)
    depth = chance.choice([1, 2, 3, 3, 4, 4])
    ty = wide_type(chance) if kind == "wide" else type_of(chance, depth)
    return ty, Speller(chance, chance.choice(RATES[kind]) / depth).value(ty)


def made_call(chance, kind):
    """The types of a function's parameters, and the tokens of values for them."""
    if kind in ("deep", "wide"):
        ty, tokens = made(chance, kind)
        return [ty], ["(", *tokens, ")"]
    depth = chance.randint(1, 3)
    types = [type_of(chance, depth) if chance.random() < 0.6 else ("option", type_of(chance, 1)) for _ in range(chance.randint(0, 4))]
    return types, params(chance, types, Speller(chance, chance.choice(RATES[kind]) / 3))


def tokens_of(chance, way, kind):
    """The types that are expected, and the tokens of a text."""
    if way in ("params", "call"):
        return made_call(chance, kind)
    ty, tokens = made(chance, kind)
    return [ty], ["(", *tokens, ")"] if way == "param" else tokens


def case(chance):
    """A random case: its way, its kind, the text of its type or function, and its text. A `value` and a `call` have no type; a `read` has
    the type of its value, `params` a function; `param` is a value as the one parameter of a call, whose node is read at the type."""
    kind = chance.choices(list(KINDS), list(KINDS.values()))[0]
    way = chance.choices(list(WAYS), list(WAYS.values()))[0]
    wild = chance.random() < 0.25
    types, tokens = tokens_of(chance, way, kind)
    if kind == "damaged" or kind in ("deep", "wide") and chance.random() < 0.3:
        tokens = damaged(chance, tokens)
    text = laid_out(chance, tokens, wild)
    if way not in ("read", "value"):
        text = func_name(chance, kind) + text
    if chance.random() < 0.01:
        text += chance.choice(["//", " // c", "//\n//"])
    text = text.encode()
    if kind == "damaged bytes":
        text = damaged_bytes(chance, text)
    if way in ("value", "call"):
        return Case(way, kind, [], "", text)
    if way == "read":
        return Case(way, kind, types, laid_out(chance, type_tokens(types[0]), wild), text)
    return Case(way, kind, types, func_text(chance, types, wild), text)
