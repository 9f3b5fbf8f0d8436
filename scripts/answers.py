"""Sends what `answer` writes back through `response`, and the value that comes through `answer` again.

    python3 scripts/answers.py ROWS [PROGRAM]

ROWS has a JSON object a line: `job`, a job of `answer`, or `job_base64`, its bytes. PROGRAM is that of way_back.py. Of each job that has
a response, the response is read. Where a value comes, `answer` has to write for it a response that is read as the same value, with the
same status and body, and in order the same values of each header, but for headers that are empty. A row isn't counted whose response is
refused, whose payload is streamed, whose map of headers has a default's name, whose texts in headers have white space at their
ends, or which has a field that its shape has not. Each job for which that isn't so has a line, and the last line is `N passed, M failed`.
"""

import collections
import json
import sys

sys.dont_write_bytecode = True
from way_back import PRELUDE, by_name, count_rows, encoded, given_job  # noqa: E402

# A response: its status, pairs of a name and a value, and its body, all but the pairs as bytes.
Response = collections.namedtuple("Response", "status headers body")


def response_of(text):
    """The response that `answer` wrote."""
    head, _, body = text.partition(b"\n\n")
    status, *lines = head.split(b"\n")
    return Response(status, [tuple(it.split(b": ", 1)) for it in lines], body)


def facts(response):
    named = by_name(it for it in response.headers if it[1])
    return response.status, named, response.body


def reading(job, response):
    """The job of `response` with this response."""
    headers = [[name.decode(), encoded(value)] for name, value in response.headers]
    asked = {"status": int(response.status), "headers": headers, "body": encoded(response.body)}
    return json.dumps({"model": job["model"], "operation": job["operation"], "response": asked}).encode()


def output_members(job):
    """The members of the operation's output by their names, each with its traits and with those of its target."""
    shapes = job["model"]["shapes"]
    output = shapes[job["operation"]].get("output", {}).get("target", PRELUDE + "Unit")
    members = shapes.get(output, {}).get("members", {})
    return {name: (it.get("traits", {}), shapes.get(it["target"], {}).get("traits", {})) for name, it in members.items()}


def is_streamed(own, traits):
    """Whether the member is a payload that no reader hands out (smithy.api#streaming)."""
    return PRELUDE + "httpPayload" in own and PRELUDE + "streaming" in {**traits, **own}


def takes_defaults(own):
    """Whether the member's prefix is one of a default header's name, so that its map is read with that header."""
    prefix = own.get(PRELUDE + "httpPrefixHeaders")
    return prefix is not None and any(name.startswith(prefix.lower()) for name in ("content-type", "content-length"))


def has_outer_blanks(own, value):
    """Whether a text of the member has white space at its ends, which a header's reader leaves out."""
    in_headers = PRELUDE + "httpHeader" in own or PRELUDE + "httpPrefixHeaders" in own
    texts = value.values() if isinstance(value, dict) else [value]
    return in_headers and any(isinstance(it, str) and it != it.strip() for it in texts)


def has_other_fields(shapes, target, value):
    """Whether a structure in the value has a field that its shape has not, which a reader passes over."""
    shape = shapes.get(target, {})
    if isinstance(value, list):
        element = shape.get("member", {}).get("target")
        return any(has_other_fields(shapes, element, it) for it in value)
    if not isinstance(value, dict):
        return False
    if shape.get("type") == "map":
        return any(has_other_fields(shapes, shape["value"]["target"], it) for it in value.values())
    members = shape.get("members")
    return members is not None and any(name not in members or has_other_fields(shapes, members[name]["target"], it) for name, it in value.items())


def is_told(job):
    """Whether a response tells its output: none is that is streamed, has a default's header in its map, loses blanks, or has other fields."""
    given = job.get("output", {})
    values = given if isinstance(given, dict) else {it[0]: it[1] for it in given}
    shapes = job["model"]["shapes"]
    targets = shapes.get(shapes[job["operation"]].get("output", {}).get("target"), {}).get("members", {})
    return not any(
        is_streamed(own, traits)
        or takes_defaults(own)
        or has_outer_blanks(own, values.get(name))
        or has_other_fields(shapes, targets[name]["target"], values.get(name))
        for name, (own, traits) in output_members(job).items()
    )


def differs(run, row):
    """How the way back of a row differs from what it is to be; "" where it doesn't, and None where there is none."""
    data = given_job(row)
    sent = run("answer", data)
    if sent.status != 0:
        return None
    job, response = json.loads(data), response_of(sent.text)
    read = run("response", reading(job, response))
    if read.status == 3 or not is_told(job):
        return None
    if read.status != 0:
        return f"ends with {read.status} and {read.text[:300]!r}"
    again = run("answer", json.dumps({**job, "output": json.loads(read.text)}).encode())
    if again.status != 0 or facts(response_of(again.text)) != facts(response):
        return f"gives {read.text[:300]!r}, which ends with {again.status} and {again.text[:300]!r}"
    twice = run("response", reading(job, response_of(again.text)))
    return "" if twice == read else f"is read again as {twice.text[:300]!r}"


if __name__ == "__main__":
    sys.exit(count_rows(differs, *sys.argv[1:]))
