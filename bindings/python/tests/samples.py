"""Types with values, drawn by a random generator that a seed began."""
from wasm_wave import Case, Err, Flags, Ok, Some
from wasm_wave._nodes import WHOLES, EnumOf, FixedList, FlagsOf, ListOf, MapOf, OptionOf, Record, ResultOf, Simple, TupleOf, Variant

NAMES = ["a", "b", "c-d", "E", "F2-G", "read", "none", "some", "ok", "err", "true", "inf", "nan", "record", "u8", "list", "long-name-of-many-words"]
CHARACTERS = "aZ09 \t\n\r\"'\\{}()[],:%/é日👋\u0301\u200b\u2028\xa0\x00\x7f\ue000\U0010ffff"
KEYS = [*WHOLES, "bool", "char", "string"]


def some_names(random):
    """One to five names, all different."""
    return tuple(random.sample(NAMES, random.randint(1, 5)))


def some_type(random, levels):
    """A type of at most so many levels."""
    if levels <= 1 or random.random() < 0.2:
        return Simple(random.choice(KEYS))
    return random.choice(PARTED)(random, levels - 1)


def maybe_type(random, levels):
    return some_type(random, levels) if random.random() < 0.7 else None


PARTED = [
    lambda random, levels: ListOf(some_type(random, levels)),
    lambda random, levels: FixedList(random.randint(0, 3), some_type(random, levels)),
    lambda random, levels: TupleOf(tuple(some_type(random, levels) for _ in range(random.randint(1, 4)))),
    lambda random, levels: Record(tuple((name, some_type(random, levels)) for name in some_names(random))),
    lambda random, levels: Variant(tuple((name, maybe_type(random, levels)) for name in some_names(random))),
    lambda random, levels: EnumOf(some_names(random)),
    lambda random, levels: OptionOf(some_type(random, levels)),
    lambda random, levels: ResultOf(maybe_type(random, levels), maybe_type(random, levels)),
    lambda random, levels: FlagsOf(some_names(random)),
    lambda random, levels: MapOf(Simple(random.choice(KEYS)), some_type(random, levels)),
]


def some_value(random, node):
    """The object of a value of the type."""
    return VALUES[type(node)](random, node)


def some_simple(random, node):
    if node.word == "bool":
        return random.random() < 0.5
    if node.word == "char":
        return random.choice(CHARACTERS)
    if node.word == "string":
        return "".join(random.choices(CHARACTERS, k=random.choice([0, 1, 3, 10])))
    kind = WHOLES[node.word]
    return random.choice([kind.low, kind.high, 0, 1, random.randint(kind.low, kind.high)])


def some_items(random, node, count):
    return [some_value(random, node) for _ in range(count)]


def some_case(random, node):
    name, payload = random.choice(node.cases)
    return Case(name) if payload is None else Case(name, some_value(random, payload))


def some_option(random, node):
    if random.random() < 0.3:
        return None
    payload = some_value(random, node.payload)
    return Some(payload) if isinstance(node.payload, OptionOf) else payload


def some_result(random, node):
    made, payload = random.choice([(Ok, node.ok), (Err, node.err)])
    return made() if payload is None else made(some_value(random, payload))


def some_map(random, node):
    return {some_value(random, node.key): some_value(random, node.value) for _ in range(random.choice([0, 1, 4]))}


VALUES = {
    Simple: some_simple,
    ListOf: lambda random, node: some_items(random, node.item, random.choice([0, 1, 2, 7])),
    FixedList: lambda random, node: some_items(random, node.item, node.length),
    TupleOf: lambda random, node: tuple(some_value(random, item) for item in node.items),
    Record: lambda random, node: {name: some_value(random, field) for name, field in node.fields},
    Variant: some_case,
    EnumOf: lambda random, node: random.choice(node.names),
    OptionOf: some_option,
    ResultOf: some_result,
    FlagsOf: lambda random, node: Flags(name for name in node.names if random.random() < 0.5),
    MapOf: some_map,
}
