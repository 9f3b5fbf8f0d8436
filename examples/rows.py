"""Tells whether each example stands with its answer among the rows that the program job_rows runs: python3 examples/rows.py"""
import collections
import json
import pathlib
import sys

HERE = pathlib.Path(__file__).resolve().parent
ROWS = HERE.parent / "crates" / "job_rows"

# A job with the words of its command, and the exit status and the text that this ends with.
Example = collections.namedtuple("Example", "name command job status text")


def examples():
    """Each example with its stored answer, and the words and the status of it among the rows of job_rows."""
    ends = {}
    with open(ROWS / "stdin", encoding="utf-8") as given, open(ROWS / "stdout", encoding="utf-8") as wanted:
        for row, end in zip(map(json.loads, given), wanted):
            status, text = end.split(" ", 1)
            ends[str(row["job"]), str(json.loads(text))] = row["words"], int(status)
    for path in sorted(HERE.glob("*.json")):
        job, text = path.read_bytes(), path.with_suffix(".txt").read_bytes()
        if (job.decode(), text.decode()) not in ends:
            sys.exit(f"{path}: no row has this job with its answer")
        words, status = ends[job.decode(), text.decode()]
        yield Example(path.name, " ".join(words), job, status, text)


if __name__ == "__main__":
    print(f"{len(list(examples()))} examples stand as rows")
