"""The repeated texts of the benchmark, and what a case is: a name, a type (of calls: those of the parameters, with ; between them), and
the text at about a number of items, which both programs read. No text has a #, which begins a case in the programs' input. The texts
here repeat one value or a few; those of varied.py are made by chance."""
import typing

PERSON = "record{name: string, age: u8, tags: list<string>, on: option<bool>}"
CONFIGURATION = "record{title: string, server: record{host: string, port: u16, tls: option<bool>}, levels: flags{debug, info, warn}, mode: enum{fast, safe}, retries: list<u8>, notes: string}"
SETTINGS = """// The server of the first site.
{
  title: "Site of the library",
  // Where it listens.
  server: {
    host: "localhost",
    port: 8080,
    tls: some(false), // until the certificate is there
  },
  levels: {info, warn},
  mode: safe,
  retries: [1, 2, 5, 10,],
  notes: \"\"\"
    Ask before a restart.
      The log has the reasons.
    \"\"\",
}"""


class Case(typing.NamedTuple):
    """A text of the benchmark, and where `serde_json` is measured on it the same data as JSON."""

    name: str
    types: str
    text: str
    json: str = ""

    def length(self):
        """The bytes of the text."""
        return len(self.text.encode())

    def given(self):
        """What the programs read."""
        return given(self.name, self.types, self.text)

    def given_as_json(self):
        """What the program over `serde_json` reads."""
        return given(self.name, "json", self.json)


def calls_of(name):
    """The calls that are made on the text of the name."""
    return ["call"] if name.startswith("call") else ["read", "untyped", "write"]


def given(name, types, text):
    """A case as the programs read it."""
    assert "#" not in text, name
    return f"#{name} {types}\n{text}".encode()


def named(front, behind, count):
    return ", ".join(f"{front}{i}{behind}" for i in range(count))


def listed(item, count):
    return f"[{', '.join([item] * count)}]"


def quoted(item, between, count):
    return f'"{between.join([item] * count)}"'


def reverse(count):
    return "{" + ", ".join(f"field-n{i}: {i}" for i in reversed(range(count))) + "}"


def repeated(size):
    """The name, type and text of each repeated text of this size."""
    wide = f"{{{''.join(f'field-n{i}: {i}, ' for i in range(100))}}}"
    flags = f"{{{''.join(f'flag-n{i}, ' for i in range(0, 32, 2))}}}"
    yield "ascii", "string", quoted("plain ascii text without any escape", ", ", size)
    yield "booleans", "list<bool>", listed("true, false", size)
    yield "call-log", f"u32;string;{PERSON}", "\n".join(f'call-me({i}, "text", {{name: "Ada", age: {i % 200}, tags: []}})' for i in range(size))
    yield "configuration", f"list<{CONFIGURATION}>", "[\n" + (SETTINGS + ",\n") * (size // 10) + "]"
    yield "escapes", "string", quoted('\\n\\t\\"\\u{1f44b}', "", size)
    yield "flags", f"list<flags{{{named('flag-n', '', 32)}}}>", listed(flags, size // 10)
    yield "lines", "string", '"""\n  ' + "\n  ".join(["a line of text"] * size) + '\n  """'
    yield "map", "map<string, u32>", "{" + "".join(f'"key-{i}": {i}, ' for i in range(size)) + "}"
    yield "nested", "list<result<option<result<u8, string>>, option<string>>>", listed('ok(some(ok(7))), err(some("no")), ok(some(err("late"))), ok(none)', size)
    yield "numbers", "list<u32>", listed("1234567", size * 10)
    yield "records", f"list<{PERSON}>", listed('{name: "Ada Lovelace", age: 36, tags: ["math", "poetry"], on: some(true)}', size)
    yield "reverse", f"record{{{named('field-n', ': u32', min(size, 4000))}}}", reverse(min(size, 4000))
    yield "scripts", "string", quoted("日本語 рус", ", ", size)
    yield "short-strings", "list<string>", listed('"a", "bc", "def"', size)
    yield "string", "string", quoted("plain ascii text, some \\n escapes \\u{e9} é", ", ", size)
    yield "variants", f"list<variant{{{named('case-n', '(u32)', 20)}}}>", listed("case-n7(7), case-n19(19)", size)
    yield "wide", f"list<record{{{named('field-n', ': u32', 100)}}}>", listed(wide, max(1, size // 50))
    if size <= 1000:
        yield "deep", "list<" * 89 + "u8" + ">" * 89, "[" * 89 + "7" + "]" * 89


def cases(size):
    """The repeated texts of this size, by their names."""
    return [Case(*it) for it in sorted(repeated(size))]
