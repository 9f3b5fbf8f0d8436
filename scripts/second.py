"""How a run ends by a slow second reading of its job, made of docs/JOBS.md and docs/MODEL.md alone: the status and the text of each command.

    python3 scripts/second.py

looks whether the rows of crates/job_rows end so. Each that doesn't has a line, and the last line is `N passed, M failed`.

scripts/jobs.py says which bytes are a job, scripts/rules.py whose schema is checked, scripts/placing.py what `request`, `rpc` and `answer`
write, scripts/received.py what `response` does, scripts/aws.py what both do by a protocol of AWS, scripts/recovering.py what `recover` does,
scripts/routes.py which operation a request is of; here they are put together.
"""

import base64
import json
import pathlib
import sys

sys.dont_write_bytecode = True
import aws
import jobs
import placing
import received
import recovering
import routes
import rules
from recovering import NOT_PLACED
from way_back import MOST_LEVELS, encoded, levels, request_of


def without(job, *keys):
    return {key: value for key, value in job.items() if key not in keys}


def told(data):
    """Bytes as the lines of `requests` have them."""
    try:
        return data.decode()
    except UnicodeDecodeError:
        return encoded(data)


def line(job, value):
    """The line of one input among many."""
    status, text = ended("request", [{**without(job, "inputs"), "input": value}])
    if status == 0:
        sent = request_of(text)
        headers = [[name.decode(), told(value)] for name, value in sent.headers]
        parts = {"method": sent.method.decode(), "target": sent.target.decode(), "headers": headers, "body": told(sent.body)}
    else:
        parts = {"fault": text.decode()[:-1]} if status == 3 else {}
    return json.dumps({"status": status, **parts}, ensure_ascii=False, separators=(",", ":")).encode() + b"\n"


def many(job):
    return 0, b"".join(line(job, value) for value in job["inputs"])


def reply(job, item):
    """The line of one response among many."""
    status, text = ended("response", [jobs.alone(job, item)])
    parts = {"fault": text.decode()[:-1]} if status == 3 else {}
    if status == 0:
        # The value is the last line: a name may have line feeds, and the value's are escaped.
        name, is_named, value = text.decode()[:-1].rpartition("\n")
        parts = {**({"error": name} if is_named else {}), "value": json.loads(value)}
    return json.dumps({"status": status, **parts}, ensure_ascii=False, separators=(",", ":")).encode() + b"\n"


def replies(job):
    return 0, b"".join(reply(job, item) for item in job["responses"])


def sent_on(job):
    """Of a request that goes to `rpc`."""
    status, text = recovering.ended(job)
    if status != 0:
        return status, text
    return placing.ended("rpc", {**job, "input": jobs.read(text), "endpoint": job.get("rpcEndpoint", "")})


def given(request):
    """A request as the jobs of `recover` have it."""
    headers = [[name.decode(), encoded(value)] for name, value in request.headers]
    return {"method": request.method.decode(), "target": request.target.decode(), "headers": headers, "body": encoded(request.body)}


def taken(job):
    """Of a call that goes to `rest`: its body has to be the input in normal form that the request of it is recovered as."""
    call = recovering.request_in(job)
    try:
        value = jobs.read(call.body)
    except jobs.NoJson:
        return NOT_PLACED
    asked = {**job, "input": value}
    if call.method != b"POST" or not isinstance(value, dict) or not jobs.is_job("request", asked) or levels(value) > MOST_LEVELS:
        return NOT_PLACED
    status, text = placing.ended("request", asked)
    is_normal = status == 0 and recovering.ended({**job, "request": given(request_of(text))}) == (0, call.body + b"\n")
    return (status, text) if is_normal else NOT_PLACED


def routed(job):
    name, line = routes.found(job)
    if name is None:
        return 3, line.encode()
    status, text = recovering.ended({**without(job, "endpoint"), "operation": name})
    return status, (f"{name}\n".encode() if status == 0 else b"") + text


READINGS = {
    "requests": many,
    "response": received.ended,
    "responses": replies,
    "recover": recovering.ended,
    "route": routed,
    "gateway": lambda job: sent_on(job) if job["to"] == "rpc" else taken(job),
}

# Each command with a protocol of AWS, and what it is without one.
AWS = {"aws request": "request", "aws response": "response"}


def is_due(command, values):
    """Whether bytes of this value, alone in a list, which is empty where they are no JSON, are a job by a checked schema."""
    return bool(values) and jobs.is_job(command, values[0]) and not rules.broken_in(command, values[0])


def ended(command, values):
    """The status and the text of a command over such bytes, of which there are not too many."""
    if command in AWS:
        has_protocol = bool(values) and isinstance(values[0], dict) and "protocol" in values[0]
        return aws.ended(command, values[0]) if has_protocol else ended(AWS[command], values)
    if not is_due(command, values):
        return 2, b""
    return placing.ended(command, values[0]) if command in placing.PLACED else READINGS[command](values[0])


# The rows.

ROWS = pathlib.Path(__file__).resolve().parent.parent / "crates" / "job_rows"


def octets(value):
    return value.encode() if isinstance(value, str) else base64.b64decode(value["base64"])


def rows():
    """The case of each row of a command, the command, the bytes of its job, and how it ends."""
    with open(ROWS / "stdin", encoding="utf-8") as given, open(ROWS / "stdout", encoding="utf-8") as ends:
        for row, end in zip(map(json.loads, given), ends):
            status, text = end.split(" ", 1)
            command = " ".join(row["words"])
            if command in jobs.READINGS or command in AWS:
                yield row["case"], command, octets(row["job"]), (int(status), octets(json.loads(text)))


def read(data):
    try:
        return [jobs.read(data)]
    except jobs.NoJson:
        return []


def main():
    passed = failed = 0
    for case, command, data, end in rows():
        due = ended(command, read(data))
        passed, failed = passed + (due == end), failed + (due != end)
        if due != end:
            print(f"{command}: {case}: is to end with {due[0]} and {due[1][:300]!r}")
    print(f"{passed} passed, {failed} failed")
    return 1 if failed else 0


if __name__ == "__main__":
    sys.exit(main())
