"""Counts the instructions that the fields of a body take by their names in JSON, by valgrind's callgrind.

    python3 bench/json_names.py [FIELDS] [PROGRAM]

`aws response` reads, and `aws request` writes, by restJson1 a body of that many String members, whose fields stand in no order, and an
empty one; the difference of the two is what the body takes, without the model. Once each member has a name in JSON, once none has. FIELDS
is 100,000 if left out, PROGRAM is that of scripts/way_back.py.
"""

import json
import random
import subprocess
import sys

from requests import PROGRAM, ROOT, counted

PRELUDE = "smithy.api#"
SEED = 1
# How many times as many instructions a body by names in JSON may take.
MOST = 1.3


def names_of(fields):
    """The name of each member, and its name in JSON, in another order than that of the members."""
    order = list(range(fields))
    random.Random(SEED).shuffle(order)
    return {f"member{place:07}": f"inJson{other:07}" for place, other in enumerate(order)}


def job_of(names, has_names, command, is_full):
    """A job of a command whose body has all fields, or none."""
    target = {"target": PRELUDE + "String"}
    members = {own: {**target, "traits": {PRELUDE + "jsonName": it}} if has_names else target for own, it in names.items()}
    http = {PRELUDE + "http": {"method": "POST", "uri": "/"}}
    shapes = {
        "ex#Put": {"type": "operation", "input": {"target": "ex#All"}, "output": {"target": "ex#All"}, "traits": http},
        "ex#All": {"type": "structure", "members": members},
    }
    job = {"model": {"shapes": shapes}, "operation": "ex#Put", "protocol": "aws.protocols#restJson1"}
    told = list(names.items()) if is_full else []
    random.Random(SEED + 1).shuffle(told)
    if command == "aws request":
        job["input"] = {own: "v" for own, _ in told}
    else:
        body = {it if has_names else own: "v" for own, it in told}
        job["response"] = {"status": 200, "body": json.dumps(body, separators=(",", ":"))}
    return json.dumps(job, separators=(",", ":")).encode()


def taken(program, names, has_names, command):
    """The instructions of a body alone."""
    full, empty = (counted(program, command, job_of(names, has_names, command, is_full)) for is_full in (True, False))
    return full - empty


def main(fields="100000", program=None):
    if program is None:
        subprocess.run([ROOT / "smithy_bind", "--build"], check=True)
        program = PROGRAM
    names, is_dear = names_of(int(fields)), False
    for command in ("aws response", "aws request"):
        own, in_json = (taken(program, names, has_names, command) for has_names in (False, True))
        print(f"{command} of {int(fields):,} fields by their members' names: {own:,} instructions a body")
        print(f"{command} of {int(fields):,} fields by names in JSON: {in_json:,} instructions a body")
        print(f"{command}: {in_json / own:.2f} times as many by names in JSON")
        is_dear = is_dear or in_json > MOST * own
    return 1 if is_dear else 0


if __name__ == "__main__":
    sys.exit(main(*sys.argv[1:]))
