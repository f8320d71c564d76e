# A block of 2,000 members: with comments at their ends and above them, with aliases, and of own sections. Sections come in
# their order with a blank line between, in each the straight statements first, and modules by their words and numbers.
# What a comment belongs to is the first name of its line.
import os
import re

SECTIONS = ["FUTURE", "STDLIB", "TILL", "THIRDPARTY", "SHOP", "FIRSTPARTY", "LOCALFOLDER"]
COUNT = 2000


def member(i):
    """The lines of a member, and its statements: section, whether it is a from statement, module, lines."""
    kind = i % 8
    if kind == 0:
        return f"import os.m{i}", [("STDLIB", 0, f"os.m{i}", f"import os.m{i}")]
    if kind == 1:
        line = f"import till.m{i} as t{i}"
        return line, [("TILL", 0, f"till.m{i}", line)]
    if kind == 2:
        line = f"from shop.m{i} import a{i}, b{i}  # about {i}"
        return f"from shop.m{i} import b{i}, a{i} # about {i}", [("SHOP", 1, f"shop.m{i}", line)]
    if kind == 3:
        line = f"from till.k{i} import n{i} as o{i}"
        return line, [("TILL", 1, f"till.k{i}", line)]
    if kind == 4:
        line = f"# above {i}\nimport request{i}"
        return line, [("THIRDPARTY", 0, f"request{i}", line)]
    if kind == 5:
        line = f"from .m{i} import x{i}"
        return line, [("LOCALFOLDER", 1, f".m{i}", line)]
    if kind == 6:
        line = f"# one {i}\n# two {i}\nfrom request{i}.sub import y{i}"
        return f"# one {i}\n\n# two {i}\nfrom request{i}.sub import (\n    y{i},\n)", [("THIRDPARTY", 1, f"request{i}.sub", line)]
    return f"import json.b{i}, json.a{i}  # k{i}", [
        ("STDLIB", 0, f"json.b{i}", f"import json.b{i}  # k{i}"),
        ("STDLIB", 0, f"json.a{i}", f"import json.a{i}"),
    ]


def place(statement):
    section, is_from, module, _ = statement
    return SECTIONS.index(section), is_from, [int(part) if part.isdigit() else part for part in re.split(r"(\d+)", module)]


members = [member(j * 1201 % COUNT) for j in range(COUNT)]
statements = sorted((statement for _, made in members for statement in made), key=place)
parts = [[lines for section, _, _, lines in statements if section == wanted] for wanted in SECTIONS]
os.mkdir("before")
os.mkdir("after")
with open("before/pyproject.toml", "w") as settings:
    settings.write(f"[tool.isort]\nsections = {SECTIONS}\nknown_till = ['till']\nknown_shop = ['shop']\n")
with open("before/shop.py", "w") as text:
    text.writelines(lines + "\n" for lines, _ in members)
with open("after/shop.py", "w") as text:
    text.write("\n\n".join("\n".join(part) for part in parts if part) + "\n")
