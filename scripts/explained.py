"""Asks `explain` what the jobs of a command are, and looks whether its line fits how the command ends.

    python3 scripts/explained.py COMMAND ROWS [PROGRAM]

ROWS has a JSON object a line: `job`, bytes that are to be a job of the command, or `job_base64`. PROGRAM is that of way_back.py. By a
slow second reading of the bytes (scripts/jobs.py, scripts/front.py, scripts/rules.py) the line has to be

- `Job` exactly where they are a job whose schema is checked, which is where the command doesn't end with 2;
- `NotJson` exactly where the bytes are no JSON, with the number of those before the first one that can't stand there;
- `NotChecked` exactly where they are a job whose schema breaks a rule, with the member that breaks the first one, if it is one of a member,
  behind the operation of many, or the response of many, whose schema it is;
- `NoJob` everywhere else, with a JSON Pointer (RFC 6901) to a place of the value, or to a key that an object there lacks, and with words
  behind it; the place is of the first key of docs/JOBS.md that hasn't its form, or else of a key whose form hangs on the shapes.

Each row for which that isn't so has a line, and the last line is `N passed, M failed`.
"""

import re
import sys

sys.dont_write_bytecode = True
from front import front  # noqa: E402
from jobs import NoJson, alone, is_job, read, wrong_key  # noqa: E402
from rules import broken_in, operation_of  # noqa: E402
from way_back import count, given_job, rows_of, runner, side_by_side  # noqa: E402

# The keys that a place is of whose form hangs on the shapes.
BY_SHAPES = ("model", "operation", "operations", "error", "code", "serviceErrors", "policy")
# The words of a place that nothing else is said of.
NO_PLACE = ": a job of this command is asked"


def leads(value, pointer):
    """Whether a JSON Pointer leads to a place of the value, or to a key that an object there lacks."""
    tokens = [it.replace("~1", "/").replace("~0", "~") for it in pointer.split("/")[1:]]
    for at, token in enumerate(tokens):
        if isinstance(value, dict):
            if token not in value:
                return at + 1 == len(tokens)
            value = value[token]
        elif isinstance(value, list) and re.fullmatch("0|[1-9][0-9]*", token) and int(token) < len(value):
            value = value[int(token)]
        else:
            return False
    return True


def pointer_in(value, told):
    """The pointer before the words, which may have a colon in a name. None where none leads."""
    ends = [it.start() for it in re.finditer(": .", told, re.DOTALL)]
    return next((told[:it] for it in ends if (it == 0 or told[0] == "/") and leads(value, told[:it])), None)


def value_of(data):
    """The value of the bytes, alone in a list. Empty where they are no JSON."""
    try:
        return [read(data)]
    except NoJson:
        return []


def first_key(pointer):
    return pointer.partition("/")[2].partition("/")[0]


def no_job_differs(command, value, told):
    pointer = pointer_in(value, told)
    if pointer is None:
        return "leads nowhere"
    if told == NO_PLACE or not isinstance(value, dict):
        return "has no place" if told == NO_PLACE or pointer else ""
    key = wrong_key(command, value)
    if key is None:
        return "" if first_key(pointer) in BY_SHAPES else "is to be of a shape"
    return "" if first_key(pointer) == key else f"is to be of the key {key}"


def kind_of(command, values):
    """The kind of line that is due, and of a rule that is broken what stands before the rule."""
    if not values:
        return "NotJson", ""
    if not is_job(command, values[0]):
        return "NoJob", ""
    if command == "responses":
        return kind_of_items(values[0])
    rule = broken_in(command, values[0])
    if not rule:
        return "Job", ""
    operation = f"operation {operation_of(values[0])}: " if command == "route" else ""
    return "NotChecked", operation + ("" if rule.member is None else f"member {rule.member}: ")


def kind_of_items(job):
    """The same of many responses: that of the first that isn't told to be a job."""
    for position, item in enumerate(job["responses"]):
        kind, before = kind_of("response", [alone(job, item)])
        if kind != "Job":
            return kind, f"response {position}: {before}" if kind == "NotChecked" else f"/responses/{position}"
    return "Job", ""


def line_differs(command, data, values, status, line):
    """How a line isn't what is to be told of bytes, which have this value, and over which the command ends with this status; "" where
    it is."""
    kind, _, told = line.decode().removesuffix("\n").partition(": ")
    due, before = kind_of(command, values)
    if kind != due or not line.endswith(b"\n"):
        return f"is to be {due}"
    if (kind == "Job") != (status != 2):
        return f"ends with {status}"
    if kind == "NotJson":
        return "" if told == f"byte {front(data)}" else f"is to be of byte {front(data)}"
    if kind == "NotChecked":
        return "" if told.startswith(before) else f"is to begin with {before}"
    if kind == "NoJob" and before:
        return "" if told.startswith((before + ":", before + "/")) else f"is to be of {before}"
    return no_job_differs(command, values[0], told) if kind == "NoJob" else ""


def differs(run, command, row):
    data = given_job(row)
    end, explained = run(command, data), run("explain", command, data)
    # A line of many that tells no job counts as the run's end.
    status = 2 if command == "responses" and b'{"status":2}' in end.text.split(b"\n") else end.status
    how = line_differs(command, data, value_of(data), status, explained.text)
    if explained.status != (7 if end.status == 7 else 0):
        return f"is explained with {explained.status}"
    return f"has the line {explained.text[:300]!r}, and {how}" if how and end.status != 7 else ""


def main(command, rows, program=None):
    run, rows = runner(program), rows_of(rows)
    return count(zip(rows, side_by_side(lambda it: differs(run, command, it), rows)))


if __name__ == "__main__":
    sys.exit(main(*sys.argv[1:]))
