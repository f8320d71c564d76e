#!/usr/bin/env python3
"""Compares what isort makes of Python files with what isort 5 makes of them.

    checks/judges/compare_isort.py PROGRAM FOLDER.. [--every N]

PROGRAM is the built isort. The script is run by a Python that has isort 5, as Debian's `/usr/bin/python3` after
`apt-get install isort`. The files are all `*.py` below the folders, or every N-th. Each is sorted by both, under the
default settings, under the profile `black`, and with two own sections, with the same list of the standard library and
with no module found on disk. isort 5 writes a file only if it finds it changed, so what counts is its result if it does, and else the text.
Files that are not UTF-8, or that Python's tokenizer refuses, are left out.

A text is cut at the lines that neither may change. What stands between two of them is a region: imports, comments and
blank lines. A difference in a region belongs to a class if the results are equal once what the class is about is taken
away from both. CLASSES says what that is, and docs/FROM_ISORT5.md has an example of each. A region gets the fewest
classes that make it equal. In each class the results of files are counted that have such a region. Where an import line
stays, or blocks of different indentation meet, only what the imports bind is compared.

Regions that no classes make equal are printed with both results, and so is a region in which isort does not bind what
the text binds. The status is 1 if there is one, or if no file was read."""

import argparse
import ast
import io
import json
import re
import subprocess
import sys
import tempfile
import tokenize
import warnings
from collections import Counter
from collections.abc import Callable
from dataclasses import dataclass, replace
from itertools import combinations, groupby
from pathlib import Path

try:
    import isort
except ImportError:
    sys.exit(f"compare_isort.py: {sys.executable} has no isort 5. With that of Debian: /usr/bin/python3 {' '.join(sys.argv)}")

TOP = Path(__file__).resolve().parents[2]
SKIP = re.compile(r"isort: ?skip(?![A-Za-z0-9_])")


@dataclass(frozen=True)
class Row:
    """A blank line, a comment of its own, or an import statement, of a region."""

    kind: str
    indent: str
    text: str
    module: str | None = None
    names: tuple[tuple[str, str | None], ...] = ()
    comments: tuple[str, ...] = ()


def is_open(lines: list[str]) -> bool:
    """Whether an import statement goes on after these lines."""
    code = [line.split("#")[0].rstrip() for line in lines]
    return code[-1].endswith("\\") or "".join(code).count("(") > "".join(code).count(")")


def comments_of(lines: list[str]) -> tuple[str, ...]:
    return tuple(line.split("#", 1)[1].strip() for line in lines if "#" in line)


def is_pinned(text: str) -> bool:
    """Whether isort leaves this import line where it is."""
    lines = text.split("\n")
    inner = [line for line in lines[:-1] if "#" in line and not line.split("#")[0].rstrip().endswith("(")]
    return bool(inner) or ";" in re.sub("#.*", "", text) or bool(SKIP.search(text)) and "#" in text


def statements_of(lines: list[str]) -> list[Row]:
    """The rows of an import line: one for each statement in it."""
    text = "\n".join(lines)
    indent = text[: len(text) - len(text.lstrip())]
    rows = []
    for node in ast.parse(text.lstrip()).body:
        names = tuple((name.name, name.asname) for name in getattr(node, "names", ()))
        module = None
        if isinstance(node, ast.ImportFrom):
            module = "." * node.level + (node.module or "")
        rows.append(Row("import", indent, text, module, names, comments_of(lines)))
    return rows


def rows_of(lines: list[str]) -> list[Row]:
    rows, at = [], 0
    while at < len(lines):
        line = lines[at]
        bare = line.strip()
        stop = at + 1
        if not bare:
            rows.append(Row("blank", "", line))
        elif bare.startswith("#"):
            rows.append(Row("comment", line[: len(line) - len(line.lstrip())], line.lstrip()))
        else:
            while is_open(lines[at:stop]) and stop < len(lines):
                stop += 1
            rows += statements_of(lines[at:stop])
        at = stop
    return rows


def logical_lines(text: str) -> list[tuple[int, int, bool]]:
    """The first line, the line after the last, and whether it is an import line, of each logical line."""
    found, start, is_import = [], None, False
    skipped = (tokenize.COMMENT, tokenize.NL, tokenize.INDENT, tokenize.DEDENT, tokenize.ENDMARKER)
    for token in tokenize.generate_tokens(io.StringIO(text).readline):
        if token.type == tokenize.NEWLINE:
            if start is not None:
                found.append((start, token.end[0], is_import))
            start = None
        elif start is None and token.type not in skipped:
            start = token.start[0] - 1
            is_import = token.string in ("import", "from")
    return found


def chunks_of(text: str) -> list[str]:
    """The parts that no sorting may change: from the first to the last of the logical lines between imports."""
    lines = text.split("\n")
    chunks, begun = [], None
    for start, stop, is_import in logical_lines(text):
        if is_import:
            if begun is not None:
                chunks.append("\n".join(lines[begun[0] : begun[1]]))
            begun = None
        else:
            begun = (start if begun is None else begun[0], stop)
    if begun is not None:
        chunks.append("\n".join(lines[begun[0] : begun[1]]))
    return chunks


def regions_of(text: str, chunks: list[str]) -> list[list[str]] | None:
    """The lines before, between and after these parts, or None if the text doesn't have the parts."""
    regions, at, text = [], 0, f"\n{text}\n"
    for chunk in chunks:
        place = text.find(f"\n{chunk}\n", at)
        if place < 0:
            return None
        regions.append(text[at:place])
        at = place + len(chunk) + 1
    regions.append(text[at:-1])
    return [region.split("\n")[1:] for region in regions]


def one_line(row: Row) -> str:
    """The statement on one line, with its comments."""
    names = ", ".join(name if alias is None else f"{name} as {alias}" for name, alias in row.names)
    start = "import " if row.module is None else f"from {row.module} import "
    return row.indent + start + names + (f"  # {'; '.join(row.comments)}" if row.comments else "")


def joined(rows: list[Row], is_meant: Callable[[Row], bool]) -> list[Row]:
    """These imports on one line each."""
    return [replace(row, text=one_line(row)) if row.kind == "import" and is_meant(row) else row for row in rows]


def merged(rows: list[Row], modules: set[str | None]) -> list[Row]:
    """The names of each of these modules in one statement, in order, with all comments."""
    groups: dict[tuple[str, str | None], list[Row]] = {}
    for row in rows:
        if row.kind == "import" and row.module in modules:
            groups.setdefault((row.indent, row.module), []).append(row)
    found = []
    for row in rows:
        if row.kind != "import" or row.module not in modules:
            found.append(row)
        elif group := groups.pop((row.indent, row.module), None):
            names = sorted({name for one in group for name in one.names}, key=str)
            comments = sorted({part for one in group for text in one.comments for part in text.split("; ")})
            one = replace(row, names=tuple(names), comments=tuple(comments))
            found.append(replace(one, text=one_line(one)))
    return found


def modules_with(rows: list[Row], is_meant: Callable[[Row], bool]) -> set[str | None]:
    return {row.module for row in rows if row.kind == "import" and row.module and is_meant(row)}


def has_alias(row: Row) -> bool:
    return any(alias for _, alias in row.names)


def bindings(rows: list[Row]) -> list[Row]:
    """What the imports bind, in order, and nothing else."""
    found = {Row("import", row.indent, str(name), row.module) for row in rows for name in row.names}
    return sorted(found, key=str)


def after_last_import(rows: list[Row]) -> list[Row]:
    last = max((place for place, row in enumerate(rows) if row.kind == "import"), default=len(rows))
    return rows[last + 1 :]


def without_blanks_after(rows: list[Row]) -> list[Row]:
    """Without the blank lines directly after the last import."""
    after = after_last_import(rows)
    blank = next((place for place, row in enumerate(after) if row.kind != "blank"), len(after))
    return rows[: len(rows) - len(after)] + after[blank:]


def without_comments(rows: list[Row], texts: set[str]) -> list[Row]:
    """Without these comments, and without blank lines."""
    return [row for row in rows if row.kind != "blank" and not (row.kind == "comment" and row.text in texts)]


def middle_comments(rows: list[Row]) -> set[str]:
    """The comments of their own after the first import."""
    first = next((place for place, row in enumerate(rows) if row.kind == "import"), len(rows))
    return {row.text for row in rows[first:] if row.kind == "comment"}


def first_comments(rows: list[Row]) -> set[str]:
    """The comments of their own before the first import."""
    first = next((place for place, row in enumerate(rows) if row.kind == "import"), 0)
    return {row.text for row in rows[:first] if row.kind == "comment"}


def parted_comments(rows: list[Row]) -> set[str]:
    """Those of them that a blank line, or the region's end, parts from the next import."""
    found: set[str] = set()
    run: list[str] = []
    for row in rows:
        if row.kind == "comment":
            run.append(row.text)
        else:
            found |= set(run) if row.kind == "blank" else set()
            run = []
    return (found | set(run)) & middle_comments(rows)


def are_twins(names: set[str]) -> bool:
    """Whether two of the names differ by capitals alone."""
    return len({name.lower() for name in names}) < len(names)


def has_twins(rows: list[Row]) -> bool:
    """Whether two modules, or two names of one module, differ by capitals alone."""
    names: dict[str | None, set[str]] = {}
    for row in rows:
        names.setdefault(row.module, set()).update(name for name, _ in row.names)
    return any(are_twins(group) for group in names.values()) or are_twins({module for module in names if module})


def with_twins_in_order(rows: list[Row]) -> list[Row]:
    """Names with twins in order on one line, and imports that stand together in the order of their lines."""
    found = []
    for row in rows:
        if are_twins({name for name, _ in row.names}):
            row = replace(row, names=tuple(sorted(row.names, key=str)))
            row = replace(row, text=one_line(row))
        found.append(row)
    runs = [list(run) for _, run in groupby(found, key=lambda row: row.kind == "import")]
    return [row for run in runs for row in (sorted(run, key=one_line) if run[0].kind == "import" else run)]


def has_pinned(rows: list[Row]) -> bool:
    return any(row.kind == "import" and is_pinned(row.text) for row in rows)


def is_short(row: Row) -> bool:
    return row.module is None or len(row.names) == 1


def is_too_wide(row: Row, limit: int) -> bool:
    """Whether some name, on a line of its own after the bracket, goes beyond the limit."""
    start = len(one_line(replace(row, names=(), comments=()))) + 1
    return any(start + len(name if alias is None else f"{name} as {alias}") + 1 > limit for name, alias in row.names)


@dataclass(frozen=True)
class Style:
    """How the texts were sorted, and whether their lines end with CR LF."""

    limit: int
    is_grid: bool
    has_carriage_returns: bool = False


STYLES = {"default": Style(79, True), "black": Style(88, False), "own sections": Style(79, True)}
OPTIONS = {"default": [], "black": ["--profile", "black"], "own sections": ["--settings-file", "own.toml"]}
# Two own sections, one before the standard library and one after it. isort 5 needs all five others in the list.
OWN = {
    "sections": ["FUTURE", "TYPES", "STDLIB", "NETWORK", "THIRDPARTY", "FIRSTPARTY", "LOCALFOLDER"],
    "known_types": ["typing", "typing_extensions", "collections.abc", "numpy.typing"],
    "known_network": ["socket", "ssl", "http", "urllib", "requests", "pip._vendor.requests"],
}


@dataclass(frozen=True)
class Class:
    """A kind of difference: where it can come, and how it is taken away from the rows of a result."""

    name: str
    applies: Callable[[list[Row], Style], bool]
    take: Callable[[list[Row], list[Row], Style], list[Row]]


CLASSES = [
    Class(
        "space at the end of a line",
        lambda before, style: any(row.text != row.text.rstrip() for row in before),
        lambda rows, before, style: [replace(row, text=row.text.rstrip()) for row in rows],
    ),
    Class(
        "blank lines before a comment after the block",
        lambda before, style: any(row.kind == "comment" for row in after_last_import(before)),
        lambda rows, before, style: without_blanks_after(rows),
    ),
    Class(
        "blank lines at the text's end, or after an indented block",
        lambda before, style: all(row.kind == "blank" for row in after_last_import(before)),
        lambda rows, before, style: without_blanks_after(rows),
    ),
    Class(
        "blocks of different indentation, one after the other",
        lambda before, style: len({row.indent for row in before if row.kind == "import"}) > 1,
        lambda rows, before, style: bindings(rows),
    ),
    Class(
        "an import line that stays",
        lambda before, style: has_pinned(before),
        lambda rows, before, style: bindings(rows),
    ),
    Class(
        "names that differ by capitals alone",
        lambda before, style: has_twins(before),
        lambda rows, before, style: with_twins_in_order(rows),
    ),
    Class(
        "one name, and a line that is too long",
        lambda before, style: any(row.kind == "import" for row in before),
        lambda rows, before, style: joined(rows, lambda row: is_short(row) and len(one_line(row)) > style.limit),
    ),
    Class(
        "several names, and one too long for the grid",
        lambda before, style: style.is_grid and any(row.kind == "import" for row in before),
        lambda rows, before, style: joined(rows, lambda row: not is_short(row) and is_too_wide(row, style.limit)),
    ),
    Class(
        "lines with CR LF in the grid",
        lambda before, style: style.is_grid and style.has_carriage_returns,
        lambda rows, before, style: joined(rows, lambda row: not is_short(row)),
    ),
    Class(
        "a comment in a wrapped statement",
        lambda before, style: any(row.comments for row in before),
        lambda rows, before, style: joined(rows, lambda row: bool(row.comments)),
    ),
    Class(
        "names with an alias among others",
        lambda before, style: any(has_alias(row) for row in before),
        lambda rows, before, style: merged(rows, modules_with(before, has_alias)),
    ),
    Class(
        "a name with a comment among others",
        lambda before, style: any(row.comments for row in before),
        lambda rows, before, style: merged(rows, modules_with(before, lambda row: bool(row.comments))),
    ),
    Class(
        "a comment that a blank line parts from the next import",
        lambda before, style: bool(parted_comments(before)),
        lambda rows, before, style: without_comments(rows, parted_comments(before)),
    ),
    Class(
        "a comment above the first import",
        lambda before, style: bool(first_comments(before)),
        lambda rows, before, style: without_comments(rows, first_comments(before)),
    ),
    Class(
        "a comment above another import",
        lambda before, style: bool(middle_comments(before)),
        lambda rows, before, style: without_comments(rows, middle_comments(before)),
    ),
]
BROKEN = "isort 5 loses an import, or changes another line"
REFUSED = "isort refuses the text"
SKIPPED = "isort 5 skips the text"
LINE_ENDS = "line ends"


def shown(rows: list[Row]) -> list[tuple[str, str, str]]:
    return [(row.kind, row.indent, row.text) for row in rows]


def explained(ours: list[Row], theirs: list[Row], before: list[Row], style: Style) -> list[str] | None:
    """The fewest classes that make the results equal, or None."""
    usable = [one for one in CLASSES if one.applies(before, style)]
    for count in range(min(len(usable), 4) + 1):
        for classes in combinations(usable, count):
            left, right = ours, theirs
            for one in classes:
                left, right = one.take(left, before, style), one.take(right, before, style)
            if shown(left) == shown(right):
                return [one.name for one in classes]
    return None


def parsed(lines: list[str]) -> list[Row] | None:
    try:
        return rows_of(lines)
    except SyntaxError:
        return None


def classes_of(text: str, ours: str, theirs: str, style: Style) -> tuple[set[str], list[tuple[str, str]]]:
    """The classes of the differences of two results, and the regions that have none."""
    found: set[str] = set()
    rest: list[tuple[str, str]] = []
    chunks = chunks_of(text)
    parts = [regions_of(one, chunks) for one in (text, ours, theirs)]
    if parts[0] is None or parts[1] is None:
        return found, [(ours, theirs)]
    if parts[2] is None:
        return {BROKEN}, rest
    for region in zip(*parts):
        if region[1] == region[2]:
            continue
        before, left, right = (parsed(lines) for lines in region)
        names = None
        if before is not None and left is not None and bindings(before) == bindings(left):
            names = [BROKEN] if right is None or bindings(before) != bindings(right) else None
            names = names or explained(left, right, before, style)
        if names is None:
            rest.append(("\n".join(region[1]), "\n".join(region[2])))
        else:
            found.update(names)
    return found, rest


def compared(text: str, ours: str | None, theirs: str | None, style: Style) -> tuple[set[str], list[tuple[str, str]]]:
    """The same, of what the programs answer: None where isort has a fault, or isort 5 skips the text."""
    if ours is None:
        return {REFUSED}, []
    if theirs is None:
        return ({SKIPPED} if ours != text else set()), []
    if ours == theirs:
        return set(), []
    style = replace(style, has_carriage_returns="\r\n" in text)
    text, ours, theirs = (one.replace("\r\n", "\n") for one in (text, ours, theirs))
    found: set[str] = set()
    if not ours.endswith("\n") or ours == theirs:
        text, ours, found = text + "\n", ours if ours.endswith("\n") else ours + "\n", {LINE_ENDS}
    more, rest = classes_of(text, ours, theirs, style)
    return found | more, rest


def sorted_by_isort(program: str, profile: str, text: str, folder: str) -> str | None:
    run = subprocess.run([program, *OPTIONS[profile], "-"], input=text.encode(), capture_output=True, cwd=folder)
    return run.stdout.decode() if run.returncode == 0 else None


def sorted_by_isort5(config: isort.Config, text: str) -> str | None:
    result = io.StringIO(newline="")
    try:
        changed = isort.api.sort_stream(io.StringIO(text, newline=""), result, extension="py", config=config)
    except isort.exceptions.FileSkipComment:
        return None
    return result.getvalue() if changed else text


def configs(folder: str) -> dict[str, isort.Config]:
    source = (TOP / "crates/isort_settings/src/standard_library.rt").read_text()
    library = re.findall(r'^    "([^"]+)",$', source, re.MULTILINE)
    same = {"known_standard_library": frozenset(library), "src_paths": (folder,), "directory": folder}
    return {
        "default": isort.Config(**same),
        "black": isort.Config(profile="black", **same),
        "own sections": isort.Config(**OWN, **same),
    }


def read(path: Path) -> str | None:
    """The text of a file, or None if it isn't UTF-8 or not Python."""
    try:
        text = path.read_bytes().decode("utf-8").removeprefix("\ufeff")
        chunks_of(text)
    except (UnicodeDecodeError, SyntaxError, tokenize.TokenError):
        return None
    return text


def main() -> int:
    parser = argparse.ArgumentParser(usage=__doc__)
    parser.add_argument("program")
    parser.add_argument("folders", nargs="+")
    parser.add_argument("--every", type=int, default=1)
    words = parser.parse_args()
    program = str(Path(words.program).resolve())
    paths = [path for folder in words.folders for path in sorted(Path(folder).rglob("*.py"))][:: words.every]
    warnings.simplefilter("ignore")
    files = same = unexplained = 0
    counts: Counter[str] = Counter()
    with tempfile.TemporaryDirectory() as folder:
        settings = configs(folder)
        lines = [f"{key} = {json.dumps(names)}\n" for key, names in OWN.items()]
        Path(folder, "own.toml").write_text("".join(["[tool.isort]\n", *lines]))
        for path in paths:
            text = read(path)
            if text is None:
                continue
            files += 1
            for profile, config in settings.items():
                ours = sorted_by_isort(program, profile, text, folder)
                found, rest = compared(text, ours, sorted_by_isort5(config, text), STYLES[profile])
                same += not found and not rest
                unexplained += bool(rest)
                counts.update(found)
                for left, right in rest:
                    print(f"{path} ({profile}):\n-- isort\n{left}\n-- isort 5\n{right}")
    for name, count in counts.most_common():
        print(f"{count:6} {name}")
    print(f"{files} files, each under {len(settings)} settings: {same} results are those of isort {isort.__version__},", end=" ")
    print(f"{unexplained} differ in a way that no class explains")
    return 1 if unexplained or not files else 0


if __name__ == "__main__":
    sys.exit(main())
