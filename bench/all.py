"""Makes all figures of this folder in one run, and prints them as tables: python3 bench/all.py [--fast]

It runs the other scripts, each as it is called alone, and takes an hour or more; what they say beside their figures goes to standard error.
With --fast `attacks.py` counts no instructions. bench/README.md says what each figure is. Beside instructions stand those of
aws-smithy-schema 1.1.2 for the same work, where it has some: they were counted once, in the same way, and no script here measures
them. A script that fails has a line, and then the status is 1.
"""

import pathlib
import re
import subprocess
import sys
import tempfile

HERE = pathlib.Path(__file__).resolve().parent
PROGRAM = HERE.parent / "crates" / "smithy_bind_program" / "out" / "smithy_bind_program"

# The scripts that tell instructions, and those that print tables of their own, which `jobs.sh` and `generate.sh` do too.
SCRIPTS = ("placing.sh", "reading.sh", "way_back.sh", "generate.sh", "jobs.sh", "requests.py", "json_names.py", "c_call.sh", "routing.sh", "run.sh", "attacks.py")

UPSTREAM = {
    "get": 7_030,
    "get told": 7_030,
    "put": 17_260,
    "put told": 17_260,
    "response": 484_200,
    "generate 1000 less generate 0": 155_900,
    "job": 406_300,
    "the process of the first sample job": 466_593,
}

# A line that tells what one takes, and one of the functions that take the most of it.
FIGURE = re.compile(r"(.+): ([\d,]+) instructions a (\w+)")
FUNCTION = re.compile(r"\s*[\d,]+  \S.*")


def said(script, words):
    """What a script writes to standard output. None where it fails."""
    runner = sys.executable if script.endswith(".py") else "sh"
    print(f"{script} ..", file=sys.stderr, flush=True)
    done = subprocess.run([runner, HERE / script, *words], stdout=subprocess.PIPE, text=True)
    return done.stdout if done.returncode == 0 else None


def process():
    """The instructions of the whole process on the first sample job."""
    with tempfile.TemporaryDirectory() as folder, open(HERE.parent / "examples" / "get_object.json", "rb") as job:
        counts = pathlib.Path(folder) / "counts"
        words = ["valgrind", "--tool=callgrind", f"--callgrind-out-file={counts}", PROGRAM, "request"]
        done = subprocess.run(words, stdin=job, stdout=subprocess.PIPE, stderr=subprocess.PIPE)
        if done.returncode != 0:
            return None
        return int(re.search(r"^summary: (\d+)$", counts.read_text(), re.M)[1])


def parted(text):
    """The figures of a script's text, each with what it is of and the script's word for one, and its other lines but for functions."""
    figures, others = [], []
    for line in text.splitlines():
        found = FIGURE.fullmatch(line)
        if found:
            figures.append((found[1], found[3], int(found[2].replace(",", ""))))
        elif not FUNCTION.fullmatch(line):
            others.append(line)
    return figures, "\n".join(others).strip()


def row(script, name, unit, count):
    upstream = UPSTREAM.get(name)
    beside = "|" if upstream is None else f"{upstream:,} | {count / upstream:.2f}"
    return f"| {name} | `{script}` | {unit} | {count:,} | {beside} |"


def main(*words):
    rows, tables, failed = [], [], []
    for script in SCRIPTS:
        text = said(script, words if script == "attacks.py" else ())
        if text is None:
            failed.append(script)
            continue
        figures, others = parted(text)
        rows += [row(script, *figure) for figure in figures]
        tables += [f"`{script}`\n\n{others}"] if others else []
    count = process() if PROGRAM.is_file() else None
    if count is None:
        failed.append("the process of the first sample job")
    else:
        rows.append(row("all.py", "the process of the first sample job", "process", count))
    print("| What | Script | One | Instructions | aws-smithy-schema | Times as many |", "|---|---|---|---|---|---|", *rows, sep="\n")
    print("", *tables, sep="\n\n")
    for it in failed:
        print(f"{it} failed")
    return 1 if failed else 0


if __name__ == "__main__":
    sys.exit(main(*sys.argv[1:]))
