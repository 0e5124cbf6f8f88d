#!/usr/bin/env python3
"""Lists the functions whose checked code is mostly drops: what the check takes longest for.

tools/drops.py [N], at the top of a checkout in which crates are built (crates/*/out/rlib).

Where a `?`, a `return` or the end of a block lets a value go, the compiler writes its drop out in place, a branch for
each variant and a call for each part; docs/PROVING.md says which forms avoid that. The first N rows (40, if N is left
out) are functions, the largest first: the size of the code in kilobytes, its calls, how many of them drop something,
and the name. Then comes a row for each crate.
"""

import glob
import json
import sys


def calls(code):
    """Returns the calls in a function's code, wherever they stand in it."""
    found, left = [], [code]
    while left:
        part = left.pop()
        if isinstance(part, dict):
            found += [inner for name, inner in part.items() if name == "Call"]
            left += part.values()
        elif isinstance(part, list):
            left += part
    return found


def measured(code):
    """Returns the size of a function's code, the number of its calls, and of those that drop something."""
    texts = [json.dumps(call) for call in calls(code)]
    return len(json.dumps(code)), len(texts), sum("drop" in text for text in texts)


def main(most):
    functions, crates = [], {}
    for path in glob.glob("crates/*/out/rlib/*.rlib/toolchain/mir.json"):
        crate = path.split("/")[1]
        with open(path, encoding="utf-8") as file:
            bodies = [(name, said.get("body")) for name, said in json.load(file)]
        for name, body in bodies:
            if body is not None:
                row = measured(body)
                functions.append((*row, name))
                crates[crate] = [a + b for a, b in zip(crates.get(crate, [0, 0, 0]), row)]
    for size, count, drops, name in sorted(functions, reverse=True)[:most]:
        print(f"{size // 1000:5d}K  {count:4d} calls  {drops:4d} drops  {name}")
    for crate, (size, count, drops) in sorted(crates.items(), key=lambda it: -it[1][0]):
        print(f"{crate:12s} {size // 1000:6d}K  {count:5d} calls, {100 * drops // max(count, 1)}% of them drops")


if __name__ == "__main__":
    main(int(sys.argv[1]) if len(sys.argv) > 1 else 40)
