# An indented line that imports 14,000 modules: each of them would get a line with the indentation of 84,000 spaces.
import os

os.mkdir("before")
with open("before/huge.py", "w") as text:
    text.write("if True:\n" + " " * 84000 + "import " + ",".join(f"a{i}" for i in range(14000)) + "\n")
