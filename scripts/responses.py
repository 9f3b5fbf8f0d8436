"""Compares the lines of `responses` with what `response` writes for each of its items alone.

    python3 scripts/responses.py ROWS [PROGRAM]

ROWS has a JSON object a line: `job`, a job of `response`, or `job_base64`, its bytes. PROGRAM is that of way_back.py. The jobs that have
a model in common are the items of one job of `responses`, in order, each twice: once with all its keys, and once, where they are the
first job's, without them, since an item has from its job what it lacks. Each line of it has to tell what `response` ends with and writes
for that item. What is no JSON, or is nested too deep to stand in an array, isn't counted. Each job of `responses` for which that isn't so
has a line, then comes `N passed, M failed`, and the last line is how many items there were.
"""

import json
import sys

sys.dont_write_bytecode = True
from jobs import alone  # noqa: E402
from requests import bytes_of  # noqa: E402
from way_back import End, count, given_job, levels, rows_of, runner, side_by_side  # noqa: E402

KEYS = ("operation", "error", "code", "serviceErrors", "policy")
MOST_LEVELS = 125
PARTS = {0: (["status", "value"], ["status", "error", "value"]), 2: (["status"],), 3: (["status", "fault"],)}


def without_own(job, whole):
    """The item of a job that leaves out what it has from the whole one. None where it lacks a key of that."""
    if any(key in whole and key not in job for key in KEYS):
        return None
    return {key: value for key, value in job.items() if key != "model" and (key == "response" or key not in whole or whole[key] != value)}


def joined(rows):
    """What jobs of one model have in common, each with the items of those jobs."""
    found = {}
    for row in rows:
        try:
            job = json.loads(given_job(row))
            if isinstance(job, dict) and "model" in job and levels(job) < MOST_LEVELS and bytes_of(job):
                found.setdefault(json.dumps(job["model"]), []).append(job)
        except ValueError:
            pass
    wholes = []
    for jobs in found.values():
        whole = {key: jobs[0][key] for key in ("model", *KEYS) if key in jobs[0]}
        own = [without_own(job, whole) for job in jobs]
        full = [{key: value for key, value in job.items() if key != "model"} for job in jobs]
        wholes.append(({"model": whole["model"]}, full))
        wholes.append((whole, [it for it in own if it is not None]))
    return wholes


def told(line):
    """What `response` ends with and writes where a line tells it."""
    value = json.loads(line)
    if list(value) not in PARTS[value["status"]]:
        raise ValueError(f"{line[:300]!r} has other keys")
    if value["status"] != 0:
        return End(value["status"], value["fault"].encode() + b"\n" if "fault" in value else b"")
    # The value stands in the line as it is: what is behind the keys before it, up to the last brace.
    front = json.dumps({key: it for key, it in value.items() if key != "value"}, ensure_ascii=False, separators=(",", ":"))
    front = (front[:-1] + ',"value":').encode()
    if not line.startswith(front):
        raise ValueError(f"{line[:300]!r} begins otherwise")
    return End(0, (value["error"].encode() + b"\n" if "error" in value else b"") + line[len(front) : -1] + b"\n")


def differs(run, whole, items):
    """How the lines of items differ from what each has alone; "" where they don't."""
    together = run("responses", bytes_of({**whole, "responses": items}))
    ends = [run("response", bytes_of(alone(whole, it))) for it in items]
    if together.status == 2:
        return "" if all(it == End(2, b"") for it in ends) else "ends with 2"
    *lines, last = together.text.split(b"\n")
    if together.status != 0 or last or len(lines) != len(items):
        return f"ends with {together.status} and {len(lines)} lines for {len(items)} responses"
    for line, it in zip(lines, ends):
        if told(line) != it:
            return f"has the line {line[:300]!r}, and alone {it.text[:300]!r} with {it.status}"
    return ""


def main(rows, program=None):
    run, wholes = runner(program), joined(rows_of(rows))
    how = side_by_side(lambda it: differs(run, *it), wholes)
    names = ({"case": f"{len(items)} responses of {whole.get('operation')}"} for whole, items in wholes)
    status = count(zip(names, how))
    print(f"{sum(len(items) for _, items in wholes)} responses")
    return status


if __name__ == "__main__":
    sys.exit(main(*sys.argv[1:]))
