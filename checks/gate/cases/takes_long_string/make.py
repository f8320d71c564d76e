# A string of 50 kB, which reads part into pieces: what stands in it is no import, and it doesn't change.
import os

string = '"""\n' + "".join(f"import inside{i}\n" for i in range(3000)) + '"""\n'
line = string.count("\n") + 1
os.mkdir("before")
os.mkdir("after")
with open("before/shop.py", "w") as text:
    text.write(string + "import b\nimport a\n")
with open("after/shop.py", "w") as text:
    text.write(string + "import a\nimport b\n")
with open("stdout", "w") as said:
    said.write(f"shop.py:{line} import b\nshop.py:{line + 1} import a\nFixing shop.py\n")
