"""A slow second reading of `aws request` and `aws response`, by docs/JOBS.md and docs/MODEL.md: the status and the text of a job.

    python3 scripts/aws.py ROWS [PROGRAM]

compares them with what a program ends with. ROWS has a JSON object a line: `words` and `job`, as in crates/job_rows/stdin. PROGRAM is that
of way_back.py. Each job for which it isn't so has a line, and the last line is `N passed, M failed`.

scripts/wire.py says what the bodies are. A job without `protocol` is that of `request` or `response`.
"""

import sys

sys.dont_write_bytecode = True
import jobs
import placing
import received
import rules
import wire
from placing import Fault, refuse
from received import Refused
from rules import REQUEST, RESPONSE, Node, end_of, http_of
from way_back import count, rows_of, runner, side_by_side

REST = "aws.protocols#restJson1"
CONTENT = {"aws.protocols#awsJson1_0": "application/x-amz-json-1.0", "aws.protocols#awsJson1_1": "application/x-amz-json-1.1"}
RAW = {"blob": "application/octet-stream", "string": "text/plain"}


# Which values are jobs.


def is_job(command, job):
    """Whether a value with `protocol` is a job, by a schema that takes it."""
    try:
        jobs.need(job["protocol"] == REST or job["protocol"] in CONTENT)
        return need_request(job) if command == "aws request" else need_response(job)
    except (jobs.NoJob, TypeError):
        return False


def need_request(job):
    jobs.is_sent(job)
    shapes, name = job["model"]["shapes"], job["operation"]
    if job["protocol"] != REST:
        jobs.need(jobs.is_name(job.get("service")))
        return True
    top = end_of(shapes, name, "input")
    return http_of(shapes, name) is not None and takes(shapes, top, REQUEST, [jobs.operation(shapes, name)[0]], http_of(shapes, name))


def need_response(job):
    jobs.response(job.get("response"))
    asked, _ = coded(job)
    jobs.is_received(asked)
    jobs.need(job.get("fractions", "refuse") in ("refuse", "floor"))
    shapes, error = job["model"]["shapes"], error_of(job)
    if job["protocol"] != REST or error == "":
        return True
    _, output, errors = jobs.operation(shapes, job["operation"])
    first = [output] if error is None else [error] if "error" in job else errors + job.get("serviceErrors", [])
    return takes(shapes, Node(shapes, error or output), RESPONSE, first)


def takes(shapes, top, bindings, first, http=None):
    """Whether a message of restJson1 is made or read by a schema, of a table of what these shapes reach."""
    reached, left = set(), list(first)
    while left:
        name = left.pop()
        if not name.startswith(jobs.PRELUDE) and name not in reached:
            reached.add(name)
            left += jobs.shape(shapes, name)
    return rules.broken(top, bindings, http) is None and wire.names_stand(shapes, top, bindings, reached)


# Floats, which are decimals.

FLOATS = [jobs.PRELUDE + it for it in ("Float", "Double", "PrimitiveFloat", "PrimitiveDouble")]


def with_decimals(job):
    """The job, whose model has a BigDecimal where it says Float or Double."""
    try:
        shapes = {name: decimal_shape(it) for name, it in jobs.shapes_of(job).items()}
    except jobs.NoJob:
        return job
    return {**job, "model": {**job["model"], "shapes": shapes}}


def decimal_shape(shape):
    if not isinstance(shape, dict):
        return shape
    found = {key: decimal_member(shape[key]) for key in ("member", "key", "value") if key in shape}
    if isinstance(shape.get("members"), dict):
        found["members"] = {name: decimal_member(it) for name, it in shape["members"].items()}
    if shape.get("type") in ("float", "double"):
        found["type"] = "bigDecimal"
    return {**shape, **found}


def decimal_member(member):
    is_float = isinstance(member, dict) and member.get("target") in FLOATS
    return {**member, "target": jobs.PRELUDE + "BigDecimal"} if is_float else member


def with_digits(node, value):
    """A value with the digits of each whole number that stands where a BigDecimal does."""
    kind = node.kind if node is not None else None
    if kind == "bigDecimal" and isinstance(value, int) and not isinstance(value, bool):
        return str(value)
    if kind == "list" and isinstance(value, list):
        element = node.element()
        return [with_digits(element, it) for it in value]
    if kind in ("map", "structure", "union") and isinstance(value, dict):
        members = node.members()
        return {name: with_digits(node.value() if kind == "map" else members.get(name), it) for name, it in value.items()}
    return value


# Values.


def present(node, value):
    """A value without the members that are null."""
    kind = node.kind if node is not None and placing.is_of_kind(node.kind, value) else None
    if kind == "list":
        element = node.element()
        return [present(element, it) for it in value]
    if kind == "map":
        entry = node.value()
        return {key: present(entry, it) for key, it in value.items()}
    return dict(present_writes(node.members(), value.items())) if kind in ("structure", "union") else value


def present_writes(members, writes):
    found = [(name, members.get(name), value) for name, value in writes]
    return [(name, present(it, value)) for name, it, value in found if value is not None or it is not None and it.kind == "document"]


# Requests.


class Message(placing.Message):
    """A request of restJson1, of writes without nulls."""

    def __init__(self, members, writes):
        payload = next((name for name, it in members.items() if "httpPayload" in it.traits), None)
        if payload and members[payload].kind == "structure" and all(name != payload for name, _ in writes):
            writes = [(payload, {}), *writes]
        self.values = dict(writes)
        super().__init__(members, writes, REQUEST)

    def body(self):
        body, content = super().body()
        payload = next(iter(self.at("httpPayload")), None)
        if payload is None:
            named = [(it, self.members[it], self.values[it]) for it in sorted(self.fields)]
            return (wire.fields_text(named, True) if body else body), content
        if payload.node.kind not in RAW:
            return wire.written(payload.node, payload.value, True).encode(), content
        media = payload.node.traits.get("mediaType")
        is_legal = media is not None and placing.is_header_value(media)
        return body, (media if is_legal else RAW[payload.node.kind]) if body else None


def writes_of(members, given):
    """The writes of an input that are no nulls."""
    writes = sorted(given.items()) if isinstance(given, dict) else given
    return present_writes(members, [(name, with_digits(members.get(name), value)) for name, value in writes])


def rest_request(job):
    shapes, name = job["model"]["shapes"], job["operation"]
    members, http = end_of(shapes, name, "input").members(), http_of(shapes, name)
    writes = writes_of(members, job["input"])
    message = Message(members, writes)
    message.target(http["uri"])
    for it, value in writes:
        if message.place(members[it]) in (None, "httpPayload"):
            wire.test(members[it], value, f".{it}")
    return placing.placed(job, http, message)


def call(job):
    shapes = job["model"]["shapes"]
    top = end_of(shapes, job["operation"], "input")
    members = top.members()
    writes = writes_of(members, job["input"])
    placing.tested_target(job.get("endpoint") or "/")
    # An input that is no structure has no members, so what stands in it was read by no node.
    entry = top.value() if top.kind == "map" else top if top.kind == "document" else None
    for it, value in writes:
        if top.kind in ("structure", "union"):
            wire.test_field(members.get(it), value, f".{it}")
        elif entry is not None:
            wire.test_natural(entry, value, f'["{it}"]')
    body = wire.fields_text([(name, members.get(name, entry), value) for name, value in sorted(dict(writes).items())], False)
    first, headers = placing.call_of(job, body, CONTENT[job["protocol"]])
    headers["x-amz-target"] = f"{job['service'].partition('#')[2]}.{job['operation'].partition('#')[2]}"
    if not placing.is_header_value(headers["x-amz-target"]):
        refuse("InvalidInput", "cannot serialize target to header `x-amz-target`: invalid header value")
    if is_query_compatible(shapes.get(job["service"])):
        headers["x-amzn-query-mode"] = "true"
    return placing.shown(first, headers, body)


def is_query_compatible(service):
    traits = service.get("traits") if isinstance(service, dict) else None
    return isinstance(traits, dict) and "aws.protocols#awsQueryCompatible" in traits


# Responses.


class Response(received.Response):
    """A response whose body is read by a node, at whose top the members stand elsewhere that have one of the traits."""

    def __init__(self, job, node, bindings):
        super().__init__(job)
        self.reader = wire.Reader(job["protocol"] == REST, job.get("fractions") == "floor")
        payload = next((it for it in node.members().values() if "httpPayload" in it.traits and it.kind not in RAW), None)
        self.root, self.bindings = (payload, ()) if payload and bindings else (node, bindings)

    def document(self):
        try:
            value = wire.json_of(self.body) if self.body else wire.Fields()
        except jobs.NoJson:
            raise received.invalid("body is not JSON") from None
        return self.reader.value(self.root, value, "", self.bindings)


def coded(job):
    """The job, with the code of its response's error where the response is to tell that, and whether it tells one."""
    if "error" in job or "code" in job or 200 <= job["response"]["status"] <= 299:
        return job, True
    found = received.Response(job)
    texts = [it.decode() for it in found.values("x-amzn-errortype")[:1] if received.is_utf8(it)] + codes_in(found.body or b"")
    return {**job, "code": texts[0] if texts else ""}, bool(texts)


def codes_in(body):
    try:
        value = wire.json_of(body)
    except jobs.NoJson:
        return []
    found = [value.last(it) for it in ("__type", "code")] if isinstance(value, wire.Fields) else []
    return [it for it in found if isinstance(it, str)]


def error_of(job):
    """The name of the error that a response is of; "" where there is none with its code, and None where it is none."""
    asked, is_told = coded(job)
    return rules.error_of(asked) if is_told else ""


def response(job):
    shapes, error = job["model"]["shapes"], error_of(job)
    asked, is_told = coded(job)
    if not is_told:
        raise received.invalid("the response names no error")
    if error == "":
        raise Refused("UnknownMember", received.code_of(asked))
    node = end_of(shapes, job["operation"], "output") if error is None else Node(shapes, error)
    if job["protocol"] == REST:
        value = received.value_of(Response(job, node, RESPONSE), node, error is not None)
    else:
        value = received.read_fields(node, Response(job, node, ()).document())
    name = f"{error}\n" if "code" in asked else ""
    return name.encode() + placing.json_text(present(node, value)) + b"\n"


def ended(command, job):
    """The status and the text of a job with `protocol`."""
    job = with_decimals(job)
    if not is_job(command, job):
        return 2, b""
    try:
        if command == "aws request":
            return 0, rest_request(job) if job["protocol"] == REST else call(job)
        return 0, response(job)
    except Fault as fault:
        return 3, fault.args[0].encode()
    except Refused as refused:
        return 3, f"{refused.kind}: {refused.told()}\n".encode()


# The rows.


def main(rows, program=None):
    import second

    run, rows = runner(program), rows_of(rows)

    def differs(row):
        data = second.octets(row["job"])
        due, found = second.ended(" ".join(row["words"]), second.read(data)), run(*row["words"], data)
        return "" if due == found else f"ends with {found.status} and {found.text[:300]!r}, and is to with {due[0]} and {due[1][:300]!r}"

    return count(zip(rows, side_by_side(differs, rows)))


if __name__ == "__main__":
    sys.exit(main(*sys.argv[1:]))
