"""Sends what `request` writes back through `recover`, and the value that comes through `request` again.

    python3 scripts/way_back.py ROWS [PROGRAM]

ROWS has a JSON object a line: `job`, a job of `request`, or `job_base64`, its bytes; and, where it is known, `recovered`, what
`recover` is to write of its request. Without PROGRAM it is the program of this repository, which ./smithy_bind --build makes first
where it is older than its sources.

Of each job that has a request, the request is read back. A value has to come where the input is typed, which the script sees for
itself; where it isn't, its request may be that of another input, which is. The value has to be the one that the row tells, if it
tells one, and to have by `request` a request with the same facts: method, path and body, and in order the values of each header and
the pieces of each query name. Each job for which that isn't so has a line, and the last line is `N passed, M failed`.
"""

import base64
import collections
import concurrent.futures
import json
import os
import pathlib
import subprocess
import sys

sys.dont_write_bytecode = True
from placing import is_of_kind  # noqa: E402
from rules import REQUEST, end_of, holes, http_of  # noqa: E402

ROOT = pathlib.Path(__file__).resolve().parent.parent
PRELUDE = "smithy.api#"
DEFAULTS = ("content-type", "content-length")
MOST_LEVELS = 100

# How a run ends.
End = collections.namedtuple("End", "status text")

# A request: its method and target, pairs of a name and a value, and its body, all but the pairs as bytes.
Request = collections.namedtuple("Request", "method target headers body")


def request_of(text):
    """The request that `request` wrote."""
    head, _, body = text.partition(b"\n\n")
    first, *lines = head.split(b"\n")
    method, target = first.split(b" ")
    return Request(method, target, [tuple(it.split(b": ", 1)) for it in lines], body)


def by_name(pairs):
    """The values under each name, in order."""
    named = collections.defaultdict(list)
    for name, value in pairs:
        named[name].append(value)
    return named


def facts(request):
    path, mark, query = request.target.partition(b"?")
    pieces = [(it.partition(b"=")[0], it) for it in query.split(b"&")] if mark else []
    return request.method, path, by_name(pieces), by_name(request.headers), request.body


def encoded(data):
    return {"base64": base64.b64encode(data).decode()}


def way_back(job, request):
    """The job of `recover` with this request."""
    asked = {"method": request.method.decode(), "target": request.target.decode(), "body": encoded(request.body)}
    asked["headers"] = [[name.decode(), encoded(value)] for name, value in request.headers]
    return {**{key: value for key, value in job.items() if key != "input"}, "request": asked}


# Whether an input that has a request is typed: what the placing doesn't ask of it.


class Input:
    """The writes of a job's input, each a name with its value, and the nodes of the members that they are for."""

    def __init__(self, job):
        shapes, name = job["model"]["shapes"], job["operation"]
        self.endpoint, self.http = job.get("endpoint", ""), http_of(shapes, name)
        self.members = end_of(shapes, name, "input").members()
        given = job["input"]
        self.writes = sorted(given.items()) if isinstance(given, dict) else given

    def trait(self, member, name):
        return self.members[member].traits.get(name)

    def is_bound(self, member):
        return any(it in self.members[member].traits for it in REQUEST)

    def first(self, member):
        return next((value for name, value in self.writes if name == member), None)

    def with_trait(self, name):
        return [it for it in self.members if name in self.members[it].traits]


def is_shaped(node, value):
    """Whether a value of the body follows its node at every depth."""
    if value is None or node.kind == "document":
        return True
    if not is_of_kind(node.kind, value):
        return False
    if node.kind == "list":
        element = node.element()
        return all(is_shaped(element, it) for it in value)
    if node.kind == "map":
        entry = node.value()
        return node.key().kind == "string" and all(is_shaped(entry, it) for it in value.values())
    if node.kind in ("structure", "union"):
        members = node.members()
        return all(it in members and is_shaped(members[it], value[it]) for it in value)
    return True


def has_shaped_body(given):
    """Whether each write to a member of the body, and the first to a payload that the codec writes, follows its node."""
    for name, value in given.writes:
        if not given.is_bound(name) and not is_shaped(given.members[name], value):
            return False
    payload = next(iter(given.with_trait("httpPayload")), None)
    if payload is None or all(name != payload for name, _ in given.writes):
        return True
    node = given.members[payload]
    return node.kind in ("blob", "string") or is_shaped(node, given.first(payload))


def writes_defaults(given, request):
    """Whether no default header stands in the place of a header member that isn't written."""
    there = {name.decode() for name, _ in request.headers}
    written = {name for name, _ in given.writes}
    names = {it: given.trait(it, "httpHeader").lower() for it in given.with_trait("httpHeader")}
    return not any(own in DEFAULTS and own in there and it not in written for it, own in names.items())


def has_no_default_entry(given):
    for name in given.with_trait("httpPrefixHeaders"):
        prefix = given.trait(name, "httpPrefixHeaders")
        if any((prefix + key).lower() in DEFAULTS for key in given.first(name) or {}):
            return False
    return True


def has_clear_template(given):
    """Whether without smithy.api#http the endpoint is a clear template: its holes are whole segments, one for each label."""
    if given.http is not None:
        return True
    literals, names = holes(given.endpoint or "/")
    labels = given.with_trait("httpLabel")
    stem, scheme, authority = literals[0].partition("?")[0].partition("://")
    return (
        "{" not in literals[-1]
        and all(it.endswith("/") and "?" not in it for it in literals[:-1])
        and all(it[:1] in ("", "/", "?") for it in literals[1:])
        and (not scheme or "/" in authority)
        and sorted(labels) == sorted(it.removesuffix("+") for it in names)
        and not any(it.endswith("+") for it in names[:-1])
    )


def levels(value):
    """How deep a JSON value is nested."""
    deepest, left = 0, [(value, 0)]
    while left:
        value, depth = left.pop()
        if isinstance(value, (list, dict)):
            depth += 1
            left += [(it, depth) for it in (value.values() if isinstance(value, dict) else value)]
        deepest = max(deepest, depth)
    return deepest


def is_shallow(request):
    """Whether a body that the codec wrote is nested at most 100 deep."""
    try:
        return levels(json.loads(request.body)) <= MOST_LEVELS
    except ValueError:
        return True


def is_typed(job, request):
    given = Input(job)
    return (
        has_shaped_body(given)
        and writes_defaults(given, request)
        and has_no_default_entry(given)
        and has_clear_template(given)
        and is_shallow(request)
    )


# The rows.


def given_job(row):
    return base64.b64decode(row["job_base64"]) if "job_base64" in row else row["job"].encode()


def differs(run, row):
    """How the way back of a row differs from what it is to be; "" where it doesn't, and None where the job has no request."""
    data = given_job(row)
    sent = run("request", data)
    if sent.status != 0:
        return None
    job, request = json.loads(data), request_of(sent.text)
    back = run("recover", json.dumps(way_back(job, request)).encode())
    if back.status == 3 and not is_typed(job, request):
        return ""
    if back.status != 0:
        return f"ends with {back.status} and {back.text[:300]!r}"
    if back.text.decode() != row.get("recovered", back.text.decode()):
        return f"gives {back.text[:300]!r} and not {row['recovered'][:300]!r}"
    again = run("request", json.dumps({**job, "input": json.loads(back.text)}).encode())
    if again.status != 0 or facts(request_of(again.text)) != facts(request):
        return f"gives {back.text[:300]!r}, which ends with {again.status} and {again.text[:300]!r}"
    return ""


def runner(program=None):
    """What runs words of the program over a job, which stands behind them, and gives how it ends."""
    if program is None:
        subprocess.run([ROOT / "smithy_bind", "--build"], check=True)
        program = ROOT / "crates" / "smithy_bind_program" / "out" / "smithy_bind_program"

    def run(*words_and_job):
        *words, job = words_and_job
        done = subprocess.run([program, *words], input=job, stdout=subprocess.PIPE)
        return End(done.returncode, done.stdout)

    return run


def rows_of(path):
    with open(path, encoding="utf-8") as lines:
        return [json.loads(it) for it in lines]


def side_by_side(each, them):
    """What a function gives of each of them, in order."""
    with concurrent.futures.ThreadPoolExecutor(os.cpu_count()) as pool:
        yield from pool.map(each, them)


def count(told):
    """Tells how each row differs that does, and how many pass and fail, of pairs of a row and of how it differs; the status of the
    script."""
    passed = failed = 0
    for row, how in told:
        if how:
            failed += 1
            print(f"{row.get('case', 'a row')}: {how}", flush=True)
        elif how is not None:
            passed += 1
    print(f"{passed} passed, {failed} failed")
    return 1 if failed else 0


def count_rows(differs, rows, program=None):
    """Counts the rows by how each differs."""
    run, rows = runner(program), rows_of(rows)
    return count(zip(rows, side_by_side(lambda it: differs(run, it), rows)))


if __name__ == "__main__":
    sys.exit(count_rows(differs, *sys.argv[1:]))
