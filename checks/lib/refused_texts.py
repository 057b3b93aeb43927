"""Texts that the program refuses, each with what a person who looks at it would be told: the lines of which one has to
be named, and the words of which one has to be said. Both are found by hand, from the text and from YAML 1.2.2."""

from __future__ import annotations

from typing import NamedTuple


class Refused(NamedTuple):
    """A text, the lines where it is wrong or where what is wrong began, and words that say what is wrong. `ours` is
    what only this program has to say: the others take such a text, or know nothing of its profile."""

    name: str
    text: bytes
    lines: tuple[int, ...]
    words: tuple[str, ...]
    ours: str = ""


# How a name that only other readers know is expanded, as the refusal has to say, and what a key of one line is too long
# for.
EXPANDED = "import --from yaml"
LONG = ("1,024", "1024")

QUOTES = [
    Refused("a double quote is open", b'a: "b\nc: d\n', (1,), ("quote",)),
    Refused("a single quote is open", b"a: 'b\nc: d\n", (1,), ("quote",)),
    Refused("a quote is open for lines", b"a: 'x\n  y\nb: c\n", (1,), ("quote",)),
    Refused("text behind a quote", b'a: "b" c\n', (1,), ("closing quote", "<scalar>", "<block end>")),
    Refused("two quoted parts", b'a: "b""c"\n', (1,), ("closing quote", "<scalar>", "<block end>")),
    Refused("an apostrophe", b"a: 'it's'\n", (1,), ("apostrophe", "<scalar>", "<block end>")),
    Refused("an unknown escape", b'a: "C:\\dir"\n', (1,), ("escape",)),
    Refused("half an escape", b'a: "\\x4"\n', (1,), ("escape", "hexdecimal")),
    Refused("a marker in quotes", b'a: "b\n--- c"\n', (1, 2), ("marker", "document separator", "document indicator")),
]

INDENTATION = [
    Refused("a line between two depths", b"a:\n    b: c\n  d: e\n", (3,), ("indent", "block end")),
    Refused("a key too deep", b"a: 1\n b: 2\n", (2,), ("indent", "mapping values")),
    Refused("a key below a value", b"a: b\n  c: d\n", (2,), ("indent", "mapping values")),
    Refused("a list between two depths", b"a:\n  - b\n - c\n", (3,), ("indent", "block end")),
    Refused("a list too shallow", b"  - a\n- b\n", (2,), ("indent", "<document start>", "document start")),
    Refused("a TAB before a key", b"a:\n\tb: c\n", (2,), ("tab", "\\t")),
    Refused("a TAB before a later key", b"a:\n  b: c\n\td: e\n", (3,), ("tab", "\\t")),
    Refused("a literal that ends early", b"a: |\n  b\n c\n", (3,), ("indent", "':'", "`: `")),
    Refused("a key below a plain text", b"a:\n  b\n  c: d\n", (2, 3), ("mapping values", "`: `", "indent", "':'")),
    Refused("a comment in a plain text", b"a: b # c\n  d\ne: f\n", (2,), ("comment", "':'")),
    Refused("a list, then a key", b"- a\nb: c\n", (2,), ("list", "block entry", "'-' indicator", "block end")),
    Refused("a key, then a list", b"a: b\n- c\n", (2,), ("list", "<block entry>", "block end", "'-' indicator")),
]

COLONS = [
    Refused("a colon in a value", b"a: b: c\n", (1,), ("quote", "mapping values")),
    Refused("two colons in a line", b"name: key: with: more\n", (1,), ("quote", "mapping values")),
    Refused("no space behind a colon", b"a:b\nc: d\n", (1, 2), ("`:`", "':'", "mapping values")),
    Refused("no colon", b"port: 80\nhost\n", (2,), ("`: `", "':'")),
    Refused("no colon above", b"host\nport: 80\n", (1, 2), ("`: `", "':'", "mapping values")),
    Refused("a list on the line of its key", b"a: - b\n", (1,), ("list", "sequence entries", "block sequence")),
    Refused("a key on the line of its key", b"a: ? b\n", (1,), ("`? `", "mapping keys", "mapping key")),
    Refused("a key without a name", b": b\n", (1,), ("key",), "key"),
    Refused("a long key", b"k" * 1_025 + b": v\n", (1,), LONG, "1,024"),
    Refused("a long key below others", b"a: b\n" + b"k" * 1_025 + b": v\n", (2,), LONG, "1,024"),
]

BRACKETS = [
    Refused("a bracket is open", b"a: [b, c\n", (1,), ("bracket", "']'", "close it")),
    Refused("a brace is open", b"a: {b: c\n", (1,), ("bracket", "brace", "'}'", "close it")),
    Refused("a bracket is open above a key", b"a: [\n  b,\n  c\nd: e\n", (1, 4), ("bracket", "']'", "comma")),
    Refused("a bracket too much", b"a: [b]]\n", (1,), ("bracket", "']'")),
    Refused("a brace for a bracket", b"a: [b, c}\n", (1,), ("bracket", "']'", "'}'")),
    Refused("two commas", b"a: [b,, c]\n", (1,), ("comma", "','")),
    Refused("no comma", b"a: {b: c d: e}\n", (1,), ("comma", "','", "mapping values", "quote")),
    Refused("no comma over lines", b'{\n  "a": 1\n  "b": 2\n}\n', (2, 3), ("comma", "','")),
    Refused("text behind a bracket", b'{"a": 1} x\n', (1,), ("bracket", "<document start>", "document start")),
    Refused("a mapping for a key", b"{a: b}: c\n", (1,), ("key",), "key"),
    Refused("a list for a key", b"? [a, b]\n: c\n", (1,), ("key",), "key"),
]

TEMPLATES = [
    Refused("a template for a value", b"a: {{ .Values.x }}\n", (1,), ("template", "key", "unhashable")),
    Refused("a template on a line", b"{{- if .Values.x }}\na: b\n{{- end }}\n", (1,), ("template",), "template"),
    Refused("a template of a list", b"a:\n  {{- toYaml .Values.x | nindent 2 }}\n", (2,), ("template",), "template"),
    Refused("a template of Jinja", b"{% if x %}\na: b\n{% endif %}\n", (1,), ("%", "template")),
]

SIGNS = [
    Refused("a percent sign", b"a: %x\n", (1,), ("%",)),
    Refused("an at sign", b"a: @x\n", (1,), ("@",)),
    Refused("a backquote", b"a: `x`\n", (1,), ("`",)),
    Refused("an alias of nothing", b"a: *b\n", (1,), ("alias",), "alias"),
    Refused("an anchor", b"base: &base\n  a: b\nuse: *base\n", (1,), ("anchor",), EXPANDED),
    Refused("a merge", b"x: &x {a: b}\ny:\n  <<: *x\n", (1,), ("anchor",), EXPANDED),
    Refused("a tag", b"a: !vault |\n  x\n", (1,), ("tag",), EXPANDED),
    Refused("a tag of a type", b"a: !!int 3\n", (1,), ("tag",), EXPANDED),
    Refused("a tag twice", b"a: !x !y z\n", (1,), ("tag",)),
    Refused("an anchor twice", b"a: &x &y z\n", (1,), ("anchor",)),
    Refused("an anchor without a name", b"a: & b\n", (1,), ("anchor",)),
    Refused("a word for a header", b"a: |x\n  b\n", (1,), ("header", "indentation", "chomping", "`|`", "comment")),
    Refused("a header of 0", b"a: |0\n  b\n", (1,), ("header", "indentation", "digit", "range")),
    Refused("a folded header in a list", b"a: [>]\n", (1,), ("block", "`>`", "'>'", "quote")),
]

DOCUMENTS = [
    Refused("a key twice", b"a: 1\nb: 2\na: 3\n", (3,), ("twice", "duplicat"), "twice"),
    Refused("a key twice below a key", b"a:\n  b: 1\n  b: 2\n", (3,), ("twice", "duplicat"), "twice"),
    Refused("two documents", b"---\na: 1\n---\nb: 2\n", (3,), ("document",), "document"),
    Refused("no document", b"# nothing\n", (1,), ("document",), "document"),
    Refused("a version", b"%YAML 2.0\n---\na: b\n", (1,), ("version", "directive", "incompatible"), "%"),
    Refused("a directive", b"%FOO\na: b\n", (1, 2), ("directive", "document start")),
    Refused("a bell", b"a: \x07\n", (1,), ("control", "special character", "#x0007")),
    Refused("a NUL", b"a: b\x00\n", (1,), ("control", "special character", "#x0000")),
    Refused("Latin-1", b"a: caf\xe9\n", (1,), ("utf-8", "utf8")),
    Refused("UTF-16", "a: b\n".encode("utf-16"), (1,), ("utf-8",), "utf-8"),
    Refused("a byte order mark", b"a: b\nc: \xef\xbb\xbfd\n", (2,), ("byte order mark", "byteordermark", "#xfeff"), "byte"),
]  # fmt: skip

TEXTS = [*QUOTES, *INDENTATION, *COLONS, *BRACKETS, *TEMPLATES, *SIGNS, *DOCUMENTS]
