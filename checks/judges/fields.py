#!/usr/bin/env python3
"""Compares what isort makes of strings with fields with what is known of the texts.

    checks/judges/fields.py PROGRAM [--files N] [--texts N] [--seed N]

PROGRAM is the built isort. No Python is asked, so this needs none that reads fields.

- N files (500) are written of statements with strings with fields: quotes of each kind, strings up to five deep in one
  another, specifications, comments, line ends and joins in fields, `!r`, `=`, lambdas and walruses in brackets, each
  prefix. In fields and literal text stands code that only looks like imports. The imports that have to be listed are
  those that the writer put between them.
- N texts (20,000) are the texts of TABLE below, each prefix of one, each with a byte changed, and texts made at random.
  Their faults, label and line, have to be those that the small lexer below finds. It goes by the rules of
  docs/GRAMMAR.md, one call for each string and field.

A line tells each file and text that differs, of the shortest 20. The last line counts. The status is 1 where one differs."""

import argparse
import random
import re
import subprocess
import sys
import tempfile
from pathlib import Path

BATCH = 500
DEPTH = 200
sys.setrecursionlimit(20 * DEPTH)

PAIRS = {"(": ")", "[": "]", "{": "}"}
OPERATORS = set("+-*/%@&|^~<>=!()[]{},:.;")
PREFIXES = {"", "r", "u", "b", "f", "t", "br", "rb", "fr", "rf", "tr", "rt"}
WORDS = {
    "F1": "not UTF-8",
    "F2": "unexpected character",
    "F3": "string not closed",
    "F4": "triple-quoted string not closed",
    "F5": "closing bracket without its opening",
    "F6": "bracket not closed",
    "F7": "backslash not before a line end",
    "F8": "more than 200 brackets open",
    "F10": "field not closed",
}


# A small lexer: the first fault of a text.


class Fault(Exception):
    """A fault: its label, and the place of its character."""


class SmallLexer:
    """Goes once over a text: `pieces`, `string`, `body` and `field` each end after what they have read."""

    def __init__(self, text: str, is_whole: bool):
        """A text, and whether it ends there, or bytes follow that begin no character."""
        self.text = text
        self.is_whole = is_whole
        self.at = 0
        self.depth = 0

    def next(self, count: int = 1) -> str:
        return self.text[self.at : self.at + count]

    def fail_at_end(self, label: str, place: int) -> None:
        raise Fault(label, place) if self.is_whole else Fault("F1", len(self.text))

    def open(self, place: int) -> None:
        if self.depth == DEPTH:
            raise Fault("F8", place)
        self.depth += 1

    def pieces(self, field: int | None) -> None:
        """The pieces of the text, or those of the field that opened here, up to its `}` or `:`."""
        brackets: list[int] = []
        while c := self.next():
            if field is not None and not brackets and c in "}:":
                return
            place = self.at
            if c.isidentifier() or c in "0123456789":
                self.word()
            elif c in "'\"":
                self.string(place, "")
            elif c == "#":
                while self.next() not in ("", "\n", "\r"):
                    self.at += 1
            elif c == "\\":
                self.join()
            elif c in PAIRS:
                self.open(place)
                brackets.append(place)
                self.at += 1
            elif c in PAIRS.values():
                if not brackets or PAIRS[self.text[brackets.pop()]] != c:
                    raise Fault("F5", place)
                self.depth -= 1
                self.at += 1
            elif c in OPERATORS or c in " \t\f\r\n" or (c == "\ufeff" and place == 0):
                self.at += 1
            else:
                raise Fault("F2", place)
        if brackets:
            self.fail_at_end("F6", brackets[-1])
        if field is not None:
            self.fail_at_end("F10", field)
        if not self.is_whole:
            raise Fault("F1", self.at)

    def word(self) -> None:
        """A word, with the string whose prefix it is."""
        start = self.at
        while self.next() and ("a" + self.next()).isidentifier():
            self.at += 1
        word = self.text[start : self.at]
        if self.next() in ("'", '"') and word.isascii() and word.lower() in PREFIXES:
            self.string(start, word.lower())

    def join(self) -> None:
        place = self.at
        self.at += 1
        if not self.next():
            self.fail_at_end("F7", place)
        if self.next() not in ("\n", "\r"):
            raise Fault("F7", place)
        self.at += 2 if self.next(2) == "\r\n" else 1

    def string(self, start: int, prefix: str) -> None:
        """A string that starts here, from its quotes on."""
        quote = self.next()
        if self.next(2) == quote * 2 and self.next(3) != quote * 3:
            self.at += 2
            return
        quotes = quote * 3 if self.next(3) == quote * 3 else quote
        self.at += len(quotes)
        self.body(start, prefix, quotes, None)

    def body(self, start: int, prefix: str, quotes: str, field: int | None) -> None:
        """The literal text of a string and its quotes, or the specification of the field that opened here and its `}`."""
        has_fields, is_short, is_named = "f" in prefix or "t" in prefix, len(quotes) == 1, False
        while c := self.next():
            if self.text.startswith(quotes, self.at):
                if field is not None:
                    raise Fault("F10", field)
                self.at += len(quotes)
                return
            if c in "\r\n" and is_short:
                raise Fault("F3", start)
            if c == "\\":
                after = self.text[self.at + 1 : self.at + 2]
                if field is not None and is_short and after in ("\r", "\n"):
                    raise Fault("F3", start)
                if has_fields and after in ("{", "}"):
                    self.at += 1
                elif has_fields and "r" not in prefix and self.next(3) == "\\N{":
                    is_named = True
                    self.at += 3
                else:
                    self.at += 3 if self.next(3) == "\\\r\n" else 2
            elif c == "{" and has_fields and not is_named:
                if field is None and self.next(2) == "{{":
                    self.at += 2
                else:
                    self.field(start, prefix, quotes, field is not None)
            else:
                self.at += 1
                if c == "}":
                    if field is not None and not is_named:
                        return
                    is_named = False
        self.at = len(self.text)
        if field is not None:
            self.fail_at_end("F10", field)
        self.fail_at_end("F3" if is_short else "F4", start)

    def field(self, start: int, prefix: str, quotes: str, is_inner: bool) -> None:
        """A field of a string, from its `{` to its `}`."""
        place = self.at
        if not is_inner and self.at + 1 == len(self.text) and not self.is_whole:
            raise Fault("F1", len(self.text))
        self.open(place)
        self.at += 1
        self.pieces(place)
        ends = self.next() == "}"
        self.at += 1
        if not ends:
            self.body(start, prefix, quotes, place)
        self.depth -= 1


def fault_of(text: bytes) -> str:
    """The fault of a text as isort tells it, from the line on, or nothing."""
    try:
        characters, is_whole = text.decode(), True
    except UnicodeDecodeError as error:
        characters, is_whole = text[: error.start].decode(), False
    try:
        SmallLexer(characters, is_whole).pieces(None)
    except Fault as fault:
        label, place = fault.args
        line = 1 + len(re.findall("\r\n|\r|\n", characters[:place]))
        return f"{line}: {label} {WORDS[label]}"
    return ""


# Texts whose faults are compared. No word of them is an import, or is one byte away from it.

TABLE = (
    'f"{d["xxxxxx"]}"', "t'{x:{w}}'", 'f"{{"', 'f"{x', 'f"{x:"', 'f"{"', 'f"{x!r:>{w}}"', 'f"}"', 'f"{}"', 'f"\\N{DASH}"',
    'rf"\\N{a}"', "f'{\n1}'\nxxxxxx a\n", 'f"{x:\n}"', 'f"a\\\nb"', 'f"""{x:""}"""', 'f"{a # }"', 'f"\\N{{ {x}"', 'f"{{{x}}}"',
    'f"{{" f"}}"', 'f"{x:{{y}}}"', 'f"{x:\\{y}}"', 'f"\\{y}\\}"', 'f"{(y := {1: 2}[1]):02}"', 'f"{f\'{f"{1}"}\'}"',
    'tR"""{\r\ny # }"\r\n:\r\n{w:\'"}"}"""', 'f"{x:\\N{a{}{w}}"', 'F"a\\\r\nb{x \\\r\n}"', 'f"{é:é}é"', 'f"{x:{y:{z:{w}}}}"',
    "b'{' u'{' f'{{'", 'f"{x:a\\"b}"', "(f'{[', f'{)}'", 'f"{x:{\n}}"', 'f"{$}"', 'f"{x \\ }"',
)  # fmt: skip
PARTS = (
    *"{}{}{}:'\"'\"()[]!=#\\N;x$é", "{{", "}}", "{x}", "{x:", 'f"', "f'", "t'''", 'f"""', 'rf"', "Rt'", '"""', "'''", "\\N{", "\\{", "\\\n", "\n", "\r", "\r\n",
    "\\\r\n", " ", " # c\n", "b'", "fu", "\ufeff",
)  # fmt: skip


def random_text(some: random.Random) -> bytes:
    """A text of parts, which often begins as one of the table's, and at times is nested as deep as can be, or deeper."""
    begun = some.choice(TABLE)[: some.randrange(12)] if some.random() < 0.5 else 'f"{' * (some.random() < 0.3)
    if some.random() < 0.02:
        begun = some.choice(('f"{', "f'{x:{", "({", 'f"{[', "f'''{x:")) * some.randrange(60, 202)
    text = (begun + "".join(some.choices(PARTS, k=some.randrange(1, 14)))).encode()
    return changed(some, text) if some.random() < 0.05 else text


def changed(some: random.Random, text: bytes) -> bytes:
    place = some.randrange(len(text))
    return text[:place] + bytes([some.randrange(256)]) + text[place + 1 :]


def mutated_texts(some: random.Random, count: int) -> list[bytes]:
    texts = []
    for row in TABLE:
        text = row.encode()
        for place in range(len(text) + 1):
            texts.append(text[:place])
        for place in range(len(text)):
            for bit in range(8):
                texts.append(text[:place] + bytes([text[place] ^ 1 << bit]) + text[place + 1 :])
    while len(texts) < count:
        texts.append(random_text(some))
    return texts[:count]


# Files whose imports are known.

# Code of a field round a string.
AROUND = (("", ""), ("d[", "]"), (" ", ".join(x)"), ("x,\n", ""), ("(y := ", ")"), ("(lambda x: ", ")"), (" {1: ", "}[1]"), ("# '\n", "\n"))


class Writer:
    """Writes a file, and keeps what has to be listed of it."""

    def __init__(self, seed: int):
        self.some = random.Random(seed)
        self.text = ""
        self.imports: list[str] = []
        self.count = 0

    def chance(self, share: float) -> bool:
        return self.some.random() < share

    def name(self) -> str:
        self.count += 1
        return f"m{self.count}"

    def no_import(self) -> str:
        """Code that only looks like an import."""
        return self.some.choice(("import {}", "from {} import a", "from . import {}", "import a as {}")).format(self.name())

    def string(self, depth: int) -> str:
        """A string with fields, which may hold others to this depth."""
        prefix = "".join(self.some.choice((c, c.upper())) for c in self.some.choice(("f", "t", "fr", "rf", "tr", "rt")))
        quotes = self.some.choice(("'", '"', "'''", '"""'))
        inside = "".join(self.some.choice((self.literal, self.field))(prefix, quotes, depth) for _ in range(self.some.randrange(1, 4)))
        return prefix + quotes + inside + quotes

    def literal(self, prefix: str, quotes: str, _depth: int) -> str:
        """Literal text: it may end neither in a backslash nor in a brace or quote that goes on after it."""
        other = "'" if quotes[0] == '"' else '"'
        texts = ["a", "{{", "}}", "{{a}}", "a}", f"\\{quotes[0]}", "\\\\", "\\\n", "é", f"{other}a{other}", "# a", self.no_import()]
        if "r" not in prefix.lower():
            texts += ["\\N{DASH}", "\\N{EM DASH}a"]
        if len(quotes) == 3:
            texts += [f"\n{self.no_import()}\n", f"{quotes[0]}a", f"{quotes[:2]}a", "\n"]
        return self.some.choice(texts)

    def field(self, prefix: str, quotes: str, depth: int) -> str:
        code = self.code(depth)
        end = self.some.choice(("", "", "!r", "=", " = ", " ", "\n")) if not code.endswith("=") else ""
        return "{" + code + end + (self.specification(prefix, quotes, depth) if self.chance(0.4) else "") + "}"

    def code(self, depth: int) -> str:
        """What may stand in a field before its end, whatever string it is in."""
        if depth > 0 and self.chance(0.6):
            before, after = self.some.choice(AROUND)
            return before + self.string(depth - 1) + after
        name, hidden = self.name(), self.no_import()
        codes = [name, f"d['{name}']", f'd["{hidden}"]', "(lambda x: x)", "(y := 1)", " {1: '}'}[1]", "x[1:2]", "'}'", '"{"', "b'{'", "''", "'''\"'''"]
        codes += [f"\n{hidden}\n", f"({hidden}\n)", f"x # {hidden} }}\"'\n", f"x + \\\n{name}", f"\n# {hidden}\n{name}\n", "[\n{\n}\n]", "x != y", "", " "]
        return self.some.choice(codes)

    def specification(self, prefix: str, quotes: str, depth: int) -> str:
        """A format specification, from its `:` on."""
        other = "'" if quotes[0] == '"' else '"'
        texts = [">10", "%Y:%m", "#x", "!", other, f"\\{quotes[0]}", "\\\\", self.no_import(), "\\N{DASH}" if "r" not in prefix.lower() else "a"]
        if len(quotes) == 3:
            texts += ["\n", f"{quotes[0]}a", f"\n{self.no_import()}\n"]
        parts = (self.field(prefix, quotes, depth - 1) if depth > 0 and self.chance(0.4) else self.some.choice(texts) for _ in range(self.some.randrange(3)))
        return ":" + "".join(parts)

    def add_import(self, indent: str) -> None:
        """An import, where a statement may start."""
        line = self.text.count("\n") + 1
        name, other = self.name(), self.name()
        source, listed = self.some.choice(
            (
                (f"import {name}", [f"import {name}"]),
                (f"import {name}.a as b, {other}", [f"import {name}.a as b", f"import {other}"]),
                (f"from .{name} import (\n  a,  # k\n  {other} as c,\n)", [f"from .{name} import a", f"from .{name} import {other} as c"]),
                (f"from {name} import *", [f"from {name} import *"]),
            )
        )
        self.text += source
        self.imports += [f"{line} {indent}{statement}" for statement in listed]

    def add_line(self) -> None:
        """A logical line, with imports or without."""
        is_indented = self.chance(0.3)
        indent = "indented " if is_indented else ""
        self.text += "if x:\n    " if is_indented else ""
        if self.chance(0.4):
            self.add_import(indent)
        else:
            before, after = self.some.choice((("x = ", ""), ("", ""), ("g(", ")"), ("x = {1: ", "}")))
            self.text += before + self.string(self.some.randrange(5)) + after
        while self.chance(0.2):
            self.text += self.some.choice(("; ", ";", "; \\\n "))
            if self.chance(0.5):
                self.add_import(indent)
            else:
                self.text += self.string(2)
        self.text += self.some.choice(("\n", "\n", "  # import a\n", "\n\n"))


def written_file(seed: int) -> tuple[bytes, list[str]]:
    """A file, and the lines that list its imports, each from its number on."""
    writer = Writer(seed)
    for _ in range(writer.some.randrange(4, 30)):
        writer.add_line()
    end = writer.some.choice(("\n", "\r\n", "\r"))
    return writer.text.replace("\n", end).encode(), writer.imports


# The comparison.


def told(program: str, texts: list[bytes]) -> list[tuple[list[str], list[str]]]:
    """What isort lists of each text, and what it tells of faults, each line from its number on."""
    with tempfile.TemporaryDirectory() as folder:
        names = [f"{number}.py" for number in range(len(texts))]
        for name, text in zip(names, texts):
            Path(folder, name).write_bytes(text)
        run = subprocess.run([program, "--identify", *names], cwd=folder, capture_output=True)
    answers: list[tuple[list[str], list[str]]] = [([], []) for _ in texts]
    for which, output in enumerate((run.stdout, run.stderr)):
        for line in output.decode().split("\n")[:-1]:
            found = re.fullmatch(r"(\d+)\.py:(.*)", line)
            if found is None:
                sys.exit(f"isort says {line!r}")
            answers[int(found[1])][which].append(found[2])
    return answers


def differences(program: str, cases: list[tuple[bytes, list[str], str]]) -> list[tuple[bytes, str]]:
    """The texts of which isort tells other imports or another fault than these, and what it tells."""
    differing = []
    for at in range(0, len(cases), BATCH):
        batch = cases[at : at + BATCH]
        for (text, imports, fault), (listed, faults) in zip(batch, told(program, [case[0] for case in batch])):
            if listed != imports or faults != [fault] * bool(fault):
                wanted = next((f"{a} is {b}" for a, b in zip(imports + ["the end"], listed + ["the end"]) if a != b), fault or "no fault")
                differing.append((text, f"has to be: {wanted}; isort tells {faults or 'no fault'}"))
    return differing


def main() -> int:
    parser = argparse.ArgumentParser(usage=__doc__)
    parser.add_argument("program")
    parser.add_argument("--files", type=int, default=500)
    parser.add_argument("--texts", type=int, default=20_000)
    parser.add_argument("--seed", type=int, default=1)
    given = parser.parse_args()
    program = str(Path(given.program).resolve())
    files = [(*written_file(given.seed * 1_000_000 + number), "") for number in range(given.files)]
    texts = [(text, list[str](), fault_of(text)) for text in mutated_texts(random.Random(given.seed), given.texts)]
    for text, _, _ in files:
        if fault := fault_of(text):
            sys.exit(f"a file that was written has a fault: {fault} in {text!r}")
    differing = differences(program, files + texts)
    for text, what in sorted(differing, key=lambda it: len(it[0]))[:20]:
        print(f"{text[:600]!r}: {what}")
    imports = sum(len(case[1]) for case in files)
    faulty = sum(bool(case[2]) for case in texts)
    print(f"{len(files)} files with {imports} imports and {len(texts)} texts with {faulty} faults compared, {len(differing)} differ")
    return 1 if differing else 0


if __name__ == "__main__":
    sys.exit(main())
