# One import of 5,000 names: they are sorted by their numbers, and each has a line of its own in mode 3.
import os

os.mkdir("before")
os.mkdir("after")
with open("before/shop.py", "w") as text:
    text.write("from shop import (" + ",\n".join(f"n{i * 1999 % 5000}" for i in range(5000)) + ")\n")
with open("after/shop.py", "w") as text:
    text.write("from shop import (\n    " + ",\n    ".join(f"n{i}" for i in range(5000)) + "\n)\n")
