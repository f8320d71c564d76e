# 64 own sections of 200 modules each: they come in the order of the setting, with a blank line between, and in each the
# modules come by their numbers.
import os

SECTIONS = [f"OWN{i}" for i in range(63, -1, -1)]
MODULES = 200

imports = [(section, number) for number in range(MODULES) for section in sorted(SECTIONS)]
os.mkdir("before")
os.mkdir("after")
with open("before/pyproject.toml", "w") as settings:
    settings.write(f"[tool.isort]\nsections = {SECTIONS}\n")
    for section in SECTIONS:
        settings.write(f"known_{section.lower()} = {[f'{section}.m{number}' for number in range(MODULES)]}\n")
with open("before/shop.py", "w") as text:
    text.writelines(f"import {section}.m{number}\n" for section, number in imports)
with open("after/shop.py", "w") as text:
    text.write("\n".join("".join(f"import {section}.m{number}\n" for number in range(MODULES)) for section in SECTIONS))
