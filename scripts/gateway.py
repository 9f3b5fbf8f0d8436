"""Sends what `request` writes to the other side of the gateway, and back.

    python3 scripts/gateway.py ROWS [PROGRAM]

ROWS and PROGRAM are those of way_back.py. Each request goes through `gateway` to `rpc`, and what comes there through `gateway` to
`rest`. A call has to come where the input is typed; where it isn't, its request may be that of another input, which is, and else the
row isn't counted. The call has to be a `POST` to `/` whose body is the text that `recover` writes of the request. Where that is nested
at most 100 deep, the call has to come back as a request with the facts of the first one: method, path and body, and in order the values
of each header and the pieces of each query name. Each job for which that isn't so has a line, and the last line is
`N passed, M failed`.
"""

import json
import sys

sys.dont_write_bytecode = True
from way_back import MOST_LEVELS, count_rows, facts, given_job, is_typed, levels, request_of, way_back  # noqa: E402


def sent_on(run, job, request, to):
    """How `gateway` ends with a request."""
    return run("gateway", json.dumps({**way_back(job, request), "to": to}).encode())


def differs(run, row):
    """How the way of a row's request differs from what it is to be; "" where it doesn't, and None where there is none."""
    data = given_job(row)
    sent = run("request", data)
    if sent.status != 0:
        return None
    job, request = json.loads(data), request_of(sent.text)
    there = sent_on(run, job, request, "rpc")
    if there.status == 3 and not is_typed(job, request):
        return None
    if there.status != 0:
        return f"ends to rpc with {there.status} and {there.text[:300]!r}"
    call = request_of(there.text)
    told = run("recover", json.dumps(way_back(job, request)).encode())
    if (call.method, call.target, call.body + b"\n") != (b"POST", b"/", told.text):
        return f"is the call {there.text[:300]!r}, and not of {told.text[:300]!r}"
    back = sent_on(run, job, call, "rest")
    if levels(json.loads(call.body)) > MOST_LEVELS:
        return "" if back.status == 3 else f"ends to rest with {back.status} and {back.text[:300]!r}, by a deeper body"
    if back.status != 0 or facts(request_of(back.text)) != facts(request):
        return f"ends to rest with {back.status} and {back.text[:300]!r}, and not with {sent.text[:300]!r}"
    return ""


if __name__ == "__main__":
    sys.exit(count_rows(differs, *sys.argv[1:]))
