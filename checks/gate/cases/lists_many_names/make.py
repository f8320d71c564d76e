# One import of 5,000 names on one line: all are listed, in the order written.
names = [f"n{i * 1999 % 5000}" for i in range(5000)]
with open("stdin", "w") as text:
    text.write("x = 1\nfrom shop import " + ", ".join(names) + "\n")
with open("stdout", "w") as listing:
    listing.writelines(f"-:2 from shop import {name}\n" for name in names)
