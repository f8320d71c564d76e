"""The plugin of python-lsp-server: diagnostics, formatting, and the code action that editors bind to "organize imports".

The server finds it by the entry point of the wheel. Settings are searched from the file of each document. A document that has a
fault stays as it is."""

import importlib
from typing import Any, Dict, Iterator, List, Optional

from .api import code
from .differences import Finding, config_of, finding_in, lines_of
from .exceptions import ISortError

_WARNING = 2
_ORGANIZE = "source.organizeImports"


def pylsp_lint(document: Any) -> List[Dict[str, Any]]:
    """The document's finding: I001 where imports are not sorted, I002 at a fault. Settings that are refused are I002 on the
    first line."""
    finding = finding_in(document.source, document.path)
    return [] if finding is None else [_diagnostic(finding, lines_of(document.source)[finding.line - 1 : finding.line])]


def pylsp_format_document(document: Any) -> Iterator[None]:
    """Sorts what the other formatters make of a document."""
    outcome: Any = yield
    before = outcome.get_result()
    text = before[0]["newText"] if before else document.source
    after = _sorted(text, document.path)
    if after is not None:
        outcome.force_result([_edit(0, len(document.lines), after)])


def pylsp_code_actions(document: Any, context: Dict[str, Any]) -> List[Dict[str, Any]]:
    """The action that sorts the document, where it isn't sorted."""
    wanted = context.get("only")
    if wanted and not any(_ORGANIZE == kind or _ORGANIZE.startswith(f"{kind}.") for kind in wanted):
        return []
    after = _sorted(document.source, document.path)
    if after is None:
        return []
    changes = {document.uri: [_smallest_edit(lines_of(document.source), lines_of(after))]}
    return [{"title": "Sort imports", "kind": _ORGANIZE, "edit": {"changes": changes}}]


def _sorted(text: str, path: str) -> Optional[str]:
    """The sorted text, if there is one and it differs."""
    try:
        after = code(text, config=config_of(path))
    except (ISortError, OSError):
        return None
    return None if after == text else after


def _diagnostic(finding: Finding, line: List[str]) -> Dict[str, Any]:
    """The finding as a warning, from its column to the line's end. The server counts lines from 0, and columns in the units of
    UTF-16."""
    before = "".join(line)[: finding.column]
    start = {"line": finding.line - 1, "character": len(before.encode("utf-16-le", "surrogatepass")) // 2}
    place = {"start": start, "end": {"line": finding.line, "character": 0}}
    return {"source": "fihroste", "range": place, "message": finding.words, "severity": _WARNING, "code": finding.code}


def _edit(first: int, end: int, text: str) -> Dict[str, Any]:
    """The text in place of the lines from the first up to the end, which are counted from 0."""
    place = {"start": {"line": first, "character": 0}, "end": {"line": end, "character": 0}}
    return {"range": place, "newText": text}


def _smallest_edit(before: List[str], after: List[str]) -> Dict[str, Any]:
    """The lines that change, without those before and after them that stay."""
    most = min(len(before), len(after))
    first = next((at for at in range(most) if before[at] != after[at]), most)
    last = next((at for at in range(most - first) if before[-1 - at] != after[-1 - at]), most - first)
    return _edit(first, len(before) - last, "".join(after[first : len(after) - last]))


# The server calls what is marked so. It is imported by name, since it has no types.
_hook = importlib.import_module("pylsp").hookimpl
_hook(pylsp_lint)
_hook(pylsp_code_actions)
_hook(hookwrapper=True)(pylsp_format_document)
