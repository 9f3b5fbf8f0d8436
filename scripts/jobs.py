"""A slow second reading of jobs, by Python's json and docs/JOBS.md: whether bytes are JSON, and whether that is the job of a command.

Whether a request or a response can be made by a job's schema is looked at by scripts/rules.py.
"""

import base64
import binascii
import json
import re

MOST_BYTES = 16_777_216
MOST_LEVELS = 127
PRELUDE = "smithy.api#"
TOKEN = re.compile(r"[!#$%&'*+.^_`|~0-9A-Za-z-]+")
FULL_NAME = re.compile(r"[^#]*#[^$]*", re.DOTALL)
PATH, QUERY, AUTHORITY = '[!"$-;=@-_a-~]', '[!"$-;=?-~]', '[!"$-.0-;=@-_a-~]'
TARGET = re.compile(rf"(/{PATH}*|https?://{AUTHORITY}+(/{PATH}*)?)(\?{QUERY}*)?")
MOST_TARGET = 65_534
ESCAPE = re.compile(r"\\(u[0-9A-Fa-f]{4}|.)", re.DOTALL)
TYPES = set("blob boolean string byte short integer long float double bigInteger bigDecimal timestamp document".split())
TYPES |= {"enum", "intEnum", "structure", "union", "list", "set", "map"}
TEXTS = {PRELUDE + it for it in "httpHeader httpQuery httpPrefixHeaders jsonName xmlName mediaType".split()}
FORMATS = ("date-time", "http-date", "epoch-seconds")
NUMBERS = "Byte Short Integer Long Float Double Boolean".split()
NAMES = {PRELUDE + it for it in "String Blob BigInteger BigDecimal Timestamp Document Unit".split() + NUMBERS}
NAMES |= {PRELUDE + "Primitive" + it for it in NUMBERS}


class NoJson(ValueError):
    """The bytes are no JSON."""


class NoJob(ValueError):
    """The value is not the job of the command."""


class Float:
    """A number that is no whole one, with its text."""

    def __init__(self, text):
        self.text = text


# JSON.


def read(data):
    """The value of the bytes."""
    try:
        text = data.decode()
        value = json.loads(text, parse_int=whole, parse_float=number, parse_constant=refuse)
    except (ValueError, RecursionError) as error:
        raise NoJson from error
    if has_lone_surrogate(text) or is_deep(text, value):
        raise NoJson
    return value


def whole(text):
    number = int(text) if len(text) <= 20 else None
    return number if number is not None and text != "-0" and -(2**63) <= number < 2**64 else number_of(text)


def number(text):
    return number_of(text)


def number_of(text):
    if float(text) in (float("inf"), float("-inf")):
        raise NoJson
    return Float(text)


def refuse(text):
    raise NoJson


def has_lone_surrogate(text):
    high = False
    if "\\u" not in text:
        return False
    end = 0
    for escape in ESCAPE.finditer(text):
        code = int(escape[1][1:], 16) if escape[1][0] == "u" and len(escape[1]) == 5 else 0
        is_low = 0xDC00 <= code < 0xE000
        if high != is_low or high and escape.start() != end:
            return True
        high, end = 0xD800 <= code < 0xDC00, escape.end()
    return high


def is_deep(text, value):
    """Whether the value is nested too deep."""
    if text.count("[") + text.count("{") <= MOST_LEVELS:
        return False
    left = [(value, 1)]
    while left:
        value, level = left.pop()
        if isinstance(value, (list, dict)):
            if level > MOST_LEVELS:
                return True
            left += [(it, level + 1) for it in (value.values() if isinstance(value, dict) else value)]
    return False


# The parts of a job. Each function ends with NoJob where what it reads has not its form.


def need(holds):
    if not holds:
        raise NoJob


def is_whole(value, least, most):
    return isinstance(value, int) and not isinstance(value, bool) and least <= value <= most


def is_name(value):
    return isinstance(value, str) and FULL_NAME.fullmatch(value) is not None


def is_target(text):
    """Whether a text is legal as a request's target."""
    return len(text) <= MOST_TARGET and TARGET.fullmatch(text) is not None


def optional(holder, key, kind):
    """The value under a key, which is of the kind where it is there."""
    value = holder.get(key)
    need(key not in holder or isinstance(value, kind))
    return value


def pairs(value):
    need(isinstance(value, list) and all(isinstance(it, list) and len(it) == 2 and isinstance(it[0], str) for it in value))
    return value


def octets(value):
    """The bytes of a text, or of an object with base64."""
    if isinstance(value, str):
        return value.encode()
    need(isinstance(value, dict) and isinstance(value.get("base64"), str))
    try:
        data = base64.b64decode(value["base64"], validate=True)
    except (binascii.Error, ValueError) as error:
        raise NoJob from error
    need(base64.b64encode(data).decode() == value["base64"])
    return data


def message(value):
    """The headers and the body of a request or a response."""
    for name, given in pairs(value.get("headers", [])):
        need(TOKEN.fullmatch(name))
        need(all(it == 9 or 32 <= it <= 126 or it >= 128 for it in octets(given)))
    if value.get("body") is not None:
        octets(value["body"])


def request(value):
    need(isinstance(value, dict) and isinstance(value.get("method"), str) and isinstance(value.get("target"), str))
    need(TOKEN.fullmatch(value["method"]) and is_target(value["target"]))
    message(value)


def response(value):
    need(isinstance(value, dict) and is_whole(value.get("status"), 100, 999))
    message(value)


def omit(job):
    flags = optional(job, "omit", dict) or {}
    for key in ("contentType", "contentLength"):
        optional(flags, key, bool)


def has_float(value):
    left = [value]
    while left:
        value = left.pop()
        if isinstance(value, Float):
            return True
        if isinstance(value, (list, dict)):
            left += value.values() if isinstance(value, dict) else value
    return False


def given_writes(job, key):
    """An input or an output."""
    need(key in job)
    value = job[key]
    if not isinstance(value, dict):
        pairs(value)
    need(not has_float(value))


# The model: the shapes that are reached.


def traits(holder):
    found = optional(holder, "traits", dict) or {}
    for name, value in found.items():
        need(is_name(name))
        if name in TEXTS:
            need(isinstance(value, str))
        elif name == PRELUDE + "timestampFormat":
            need(value in FORMATS)
        elif name == PRELUDE + "xmlNamespace":
            need(isinstance(value, dict) and isinstance(value.get("uri"), str))
            optional(value, "prefix", str)
    return found


def target(holder):
    need(isinstance(holder, dict) and isinstance(holder.get("target"), str))
    return holder["target"]


def members(shape, kind):
    """The members of a shape of this type."""
    if kind in ("structure", "union"):
        found = shape.get("members")
        need(isinstance(found, dict))
        return list(found.values())
    if kind in ("list", "set"):
        return [shape.get("member")]
    return [shape.get("key"), shape.get("value")] if kind == "map" else []


def shape(shapes, name):
    """The targets of a shape's members."""
    need(is_name(name) and isinstance(shapes.get(name), dict))
    found = shapes[name]
    kind = found.get("type")
    need(isinstance(kind, str) and kind in TYPES)
    need(found.get("mixins", []) == [])
    traits(found)
    reached = []
    for member in members(found, kind):
        reached.append(target(member))
        traits(member)
    return reached


def walk(shapes, first):
    """Looks at the shapes that are reached from these."""
    left, seen = list(first), set()
    while left:
        name = left.pop()
        if name.startswith(PRELUDE):
            need(name in NAMES)
        elif name not in seen:
            seen.add(name)
            left += shape(shapes, name)


def http(found, is_needed):
    value = found.get(PRELUDE + "http")
    if value is None and PRELUDE + "http" not in found:
        need(not is_needed)
        return
    need(isinstance(value, dict) and isinstance(value.get("method"), str) and isinstance(value.get("uri"), str))
    need("code" not in value or is_whole(value["code"], 0, 65_535))


def operation(shapes, name, is_needed=False):
    """An operation: the names of its input, its output and its errors."""
    need(is_name(name) and not name.startswith(PRELUDE))
    need(isinstance(shapes.get(name), dict) and shapes[name].get("type") == "operation")
    found = shapes[name]
    need(found.get("mixins", []) == [])
    http(traits(found), is_needed)
    ends = [target(found[it]) if it in found else PRELUDE + "Unit" for it in ("input", "output")]
    errors = found.get("errors", [])
    need(isinstance(errors, list))
    return *ends, [target(it) for it in errors]


def shapes_of(job):
    need(isinstance(job.get("model"), dict) and isinstance(job["model"].get("shapes"), dict))
    return job["model"]["shapes"]


def by_input(job):
    shapes = shapes_of(job)
    walk(shapes, operation(shapes, job.get("operation"))[:1])
    need("endpoint" not in job or isinstance(job["endpoint"], str))
    omit(job)


def is_sent(job):
    by_input(job)
    given_writes(job, "input")


def are_sent(job):
    by_input(job)
    need(isinstance(job.get("inputs"), list))


def is_recovered(job):
    by_input(job)
    request(job.get("request"))


def is_routed(job):
    """The model is looked at for each operation, so not where there is none."""
    names = job.get("operations")
    need("model" in job and isinstance(names, list))
    for name in names:
        walk(shapes_of(job), operation(shapes_of(job), name, True)[:1])
    omit(job)
    request(job.get("request"))


def is_received(job):
    shapes = shapes_of(job)
    _, output, errors = operation(shapes, job.get("operation"))
    response(job.get("response"))
    policy(job)
    service = job.get("serviceErrors", [])
    need(isinstance(service, list) and all(is_name(it) for it in service))
    if "error" in job:
        need("code" not in job and "serviceErrors" not in job and job["error"] in errors)
        walk(shapes, [job["error"]])
    elif "code" in job:
        need(isinstance(job["code"], str))
        walk(shapes, errors + service)
    else:
        walk(shapes, [output])


def alone(job, item):
    """The job of one response among many: of each key what its item has, or else the job; the model is the job's."""
    item = item if isinstance(item, dict) else {}
    own = {key: item[key] for key in ("operation", "response", "error", "code", "serviceErrors", "policy") if key in item}
    return {**{key: value for key, value in job.items() if key != "responses"}, **own}


def are_received(job):
    shapes_of(job)
    need(isinstance(job.get("responses"), list))


def is_sent_on(job):
    is_recovered(job)
    way(job)
    call_endpoint(job)


def is_answered(job):
    shapes = shapes_of(job)
    _, output, _ = operation(shapes, job.get("operation"))
    walk(shapes, [output])
    given_writes(job, "output")
    bound = shapes[job["operation"]].get("traits", {}).get(PRELUDE + "http", {})
    need(is_whole(job["status"] if "status" in job else bound.get("code", 200), 100, 999))


READINGS = {
    "request": is_sent,
    "requests": are_sent,
    "responses": are_received,
    "rpc": is_sent,
    "recover": is_recovered,
    "route": is_routed,
    "gateway": is_sent_on,
    "response": is_received,
    "answer": is_answered,
}


# The keys of a job with a form that doesn't hang on the shapes, each command's in the order of docs/JOBS.md.


def has_shapes(job):
    shapes_of(job)


def names_operation(job):
    name = job.get("operation")
    need(is_name(name) and name in shapes_of(job))


def key_of(key, reads):
    """What reads the value of a key that has to be there."""

    def read(job):
        need(key in job)
        reads(job[key])

    return read


def texts_if_there(*keys):
    def read(job):
        for key in keys:
            optional(job, key, str)

    return read


def is_list(value):
    need(isinstance(value, list))


def way(job):
    need(job.get("to") in ("rpc", "rest"))


def call_endpoint(job):
    endpoint = job.get("rpcEndpoint", "")
    need(isinstance(endpoint, str) and (not endpoint or is_target(endpoint)))


def policy(job):
    need(job.get("policy", "reject") in ("reject", "skip"))


def status(job):
    need("status" not in job or is_whole(job["status"], 100, 999))


MODEL = (("model", has_shapes), ("operation", names_operation))
ENDPOINT, OMIT, ASKED = ("endpoint", texts_if_there("endpoint")), ("omit", omit), ("request", key_of("request", request))
SENT = (*MODEL, ("input", lambda job: given_writes(job, "input")), ENDPOINT, OMIT)
KEYS = {
    "request": SENT,
    "requests": (*MODEL, ("inputs", key_of("inputs", is_list)), ENDPOINT, OMIT),
    "rpc": SENT,
    "response": (*MODEL, ("response", key_of("response", response)), ("error", texts_if_there("error"))),
    "responses": (("model", has_shapes), ("responses", key_of("responses", is_list))),
    "recover": (*MODEL, ENDPOINT, OMIT, ASKED),
    "route": (("model", key_of("model", lambda _: None)), OMIT, ASKED, ("operations", key_of("operations", is_list))),
    "gateway": (*MODEL, ENDPOINT, OMIT, ASKED, ("to", way), ("rpcEndpoint", call_endpoint)),
    "answer": (*MODEL, ("output", lambda job: given_writes(job, "output")), ("status", status)),
}


def wrong_key(command, value):
    """The first of these keys that isn't of its form, of an object that is no job; None where they all are."""
    for key, reads in KEYS[command]:
        try:
            reads(value)
        except NoJob:
            return key
    return None


def is_job(command, value):
    """Whether a value that was read is a job of the command."""
    try:
        need(isinstance(value, dict))
        READINGS[command](value)
    except NoJob:
        return False
    return True
