# 3,000 imports of as many packages, and then others of the same: under a key the first of each is listed. The key of a
# package is the first name of the module, that of a module the module, that of an attribute both module and name, and
# that of an alias all three.
import os

COUNT = 3000
imports = [(f"p{i}", "m", "n", "a") for i in range(COUNT)]
others = [("m", "n", "a"), ("m", "n", "b"), ("m", "k", "a"), ("o", "n", "a")]
imports += [(f"p{i}", *others[i % 4]) for i in range(COUNT)]

os.mkdir("before")
with open("before/shop.py", "w") as text:
    text.writelines(f"from {p}.{m} import {n} as {a}\n" for p, m, n, a in imports)
with open("stdout", "w") as listing:
    for option, length in [("", None), ("--packages", 1), ("--modules", 2), ("--attributes", 3), ("--unique", 4)]:
        listing.write(f"{option}:\n")
        seen = set()
        for line, parts in enumerate(imports, 1):
            if length is None or parts[:length] not in seen:
                listing.write("shop.py:{} from {}.{} import {} as {}\n".format(line, *parts))
            seen.add(parts[:length])
