"""The profiles: values of settings that go together."""

from typing import Any, Dict

black: Dict[str, Any] = {
    "multi_line_output": 3,
    "include_trailing_comma": True,
    "force_grid_wrap": 0,
    "use_parentheses": True,
    "ensure_newline_before_comments": True,
    "line_length": 88,
}

profiles: Dict[str, Dict[str, Any]] = {"black": black}
