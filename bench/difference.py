"""Prints what one request takes, or one of what the last word names: the difference of two lists of callgrind_annotate, divided by
the number of these between them."""
import collections
import re
import sys

LINE = re.compile(r"^\s*([\d,]+) \(\s*[\d.]+%\)\s+(.*)$")


def taken(path):
    """The instructions of each function, and their sum."""
    functions = collections.Counter()
    whole = 0
    for line in open(path, errors="replace"):
        found = LINE.match(line)
        if not found:
            continue
        instructions, name = int(found[1].replace(",", "")), found[2]
        if name.startswith("PROGRAM TOTALS"):
            whole = instructions
        else:
            name = re.sub(r" \[.*\]$", "", name).split("/")[-1]
            functions[name.split(":", 1)[-1]] += instructions
    return functions, whole


sample, times = sys.argv[1], int(sys.argv[2])
(few, all_few), (many, all_many) = taken(sys.argv[3]), taken(sys.argv[4])
unit = sys.argv[5] if len(sys.argv) > 5 else "request"
print(f"{sample.strip()}: {(all_many - all_few) / times:,.0f} instructions a {unit}")
each = {name: (many[name] - few[name]) / times for name in many}
for name in sorted(each, key=each.get, reverse=True)[:30]:
    if each[name] >= 1:
        print(f"{each[name]:>9,.0f}  {name[:120]}")
print()
