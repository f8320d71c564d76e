# 200 brackets in one another, on 20,000 lines, and in a second file 201.
import os

LINES = 50  # of each bracket, from where it opens and from where it closes


def nested(depth):
    """A list of brackets in one another, and the line of the last that opens."""
    pairs = [["()", "[]", "{}"][i % 3] for i in range(depth)]
    opening = "".join(pair[0] + "\n" + "1,\n" * (LINES - 1) for pair in pairs)
    closing = ("\n" + ",2\n" * (LINES - 1)).join(pair[1] for pair in reversed(pairs))
    return "x = " + opening + closing + "\n", (depth - 1) * LINES + 1


os.mkdir("before")
os.mkdir("after")
deep, _ = nested(200)
deeper, line = nested(201)
first = deep.count("\n") + 1
with open("before/deep.py", "w") as text:
    text.write(deep + "import b\nimport a\n")
with open("after/deep.py", "w") as text:
    text.write(deep + "import a\nimport b\n")
with open("before/deeper.py", "w") as text:
    text.write(deeper + "import b\nimport a\n")
with open("stdout", "w") as said:
    said.write(f"deep.py:{first} import b\ndeep.py:{first + 1} import a\nFixing deep.py\n")
with open("stderr", "w") as said:
    said.write(f"deeper.py:{line}: F8 more than 200 brackets open\n" * 2)
