"""Compares the lines of `requests` with what `request` writes for each input alone.

    python3 scripts/requests.py ROWS [PROGRAM]

ROWS has a JSON object a line: `job`, a job of `request`, or `job_base64`, its bytes. PROGRAM is that of way_back.py. The inputs of
jobs that have model, operation, endpoint and headers to be left out in common are those of one job of `requests`, in order. Each line
of it has to tell what `request` ends with and writes for that input; where it ends with 2, so does `request` for each. What is no
JSON, or is nested too deep to stand in an array, isn't counted. Each job of `requests` for which that isn't so has a line, then comes
`N passed, M failed`, and the last line is how many inputs there were.
"""

import base64
import json
import sys

sys.dont_write_bytecode = True
from way_back import End, count, given_job, levels, rows_of, runner, side_by_side  # noqa: E402

COMMON = ("model", "operation", "endpoint", "omit")
MOST_LEVELS = 126
KEYS = {0: ["status", "method", "target", "headers", "body"], 2: ["status"], 3: ["status", "fault"]}


def bytes_of(job):
    return json.dumps(job, allow_nan=False, ensure_ascii=False).encode()


def inputs_of(rows):
    """What jobs have in common, each with the inputs of those jobs."""
    joined = {}
    for row in rows:
        try:
            job = json.loads(given_job(row))
            if isinstance(job, dict) and "input" in job and levels(job) < MOST_LEVELS and bytes_of(job):
                common = {key: job[key] for key in COMMON if key in job}
                joined.setdefault(json.dumps(common), (common, []))[1].append(job["input"])
        except ValueError:
            pass
    return list(joined.values())


def told(line):
    """What `request` ends with and writes where a line tells it."""
    value = json.loads(line)
    if list(value) != KEYS[value["status"]]:
        raise ValueError(f"{line[:300]!r} has other keys")
    if value["status"] != 0:
        return End(value["status"], value["fault"].encode() + b"\n" if "fault" in value else b"")
    lines = [f"{value['method']} {value['target']}".encode()]
    lines += [name.encode() + b": " + text_of(it) for name, it in value["headers"]]
    return End(0, b"\n".join([*lines, b"", text_of(value["body"])]))


def text_of(value):
    """The bytes of a value of a line: a text, or in base64 one that is not UTF-8."""
    if isinstance(value, str):
        return value.encode()
    data = base64.b64decode(value["base64"], validate=True)
    try:
        data.decode()
    except UnicodeDecodeError:
        return data
    raise ValueError(f"{data[:300]!r} is a text")


def differs(run, common, inputs):
    """How the lines of inputs differ from what each has alone; "" where they don't."""
    together = run("requests", bytes_of({**common, "inputs": inputs}))
    alone = [run("request", bytes_of({**common, "input": it})) for it in inputs]
    if together.status == 2:
        return "" if all(it == End(2, b"") for it in alone) else "ends with 2"
    *lines, last = together.text.split(b"\n")
    if together.status != 0 or last or len(lines) != len(inputs):
        return f"ends with {together.status} and {len(lines)} lines for {len(inputs)} inputs"
    for line, it in zip(lines, alone):
        if told(line) != it:
            return f"has the line {line[:300]!r}, and alone {it.text[:300]!r} with {it.status}"
    return ""


def main(rows, program=None):
    run, joined = runner(program), inputs_of(rows_of(rows))
    how = side_by_side(lambda it: differs(run, *it), joined)
    names = ({"case": f"{len(inputs)} inputs of {common.get('operation')}"} for common, inputs in joined)
    status = count(zip(names, how))
    print(f"{sum(len(inputs) for _, inputs in joined)} inputs")
    return status


if __name__ == "__main__":
    sys.exit(main(*sys.argv[1:]))
