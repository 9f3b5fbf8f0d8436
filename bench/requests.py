"""Counts the instructions that an input of `requests` takes, by valgrind's callgrind.

    python3 bench/requests.py [N] [PROGRAM]

The program answers a job with N inputs of the example put_object's operation, and of get_object's, and one with 2N; the difference of
the two, divided by N, is what one takes: it is read, placed, and written as a line. N is 10,000 if left out, PROGRAM is that of
scripts/way_back.py.
"""

import json
import pathlib
import re
import subprocess
import sys
import tempfile

ROOT = pathlib.Path(__file__).resolve().parent.parent
PROGRAM = ROOT / "crates" / "smithy_bind_program" / "out" / "smithy_bind_program"


def counted(program, command, job):
    """The instructions of a run over a job."""
    with tempfile.TemporaryDirectory() as work:
        words = ["valgrind", "--tool=callgrind", f"--callgrind-out-file={work}/out", str(program), *command.split()]
        run = subprocess.run(words, input=job, stdout=subprocess.PIPE, stderr=subprocess.PIPE, check=True)
        return int(re.search(rb"Collected : (\d+)", run.stderr)[1])


def many(name, count):
    """A job with so many inputs, each that of an example."""
    job = json.loads((ROOT / "examples" / f"{name}.json").read_bytes())
    job["inputs"] = [job.pop("input")] * count
    return json.dumps(job, separators=(",", ":")).encode()


def main(count="10000", program=None):
    count = int(count)
    if program is None:
        subprocess.run([ROOT / "smithy_bind", "--build"], check=True)
        program = PROGRAM
    for name in ("get_object", "put_object"):
        once, twice = (counted(program, "requests", many(name, times)) for times in (count, 2 * count))
        print(f"requests of {name}: {(twice - once) // count:,} instructions a line")


if __name__ == "__main__":
    main(*sys.argv[1:])
