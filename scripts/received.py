"""A slow second reading of what `response` writes, by docs/JOBS.md and docs/MODEL.md: the line of a response's value, or of its first
refusal.

The value is that of a job of `response` whose schema is checked, as scripts/jobs.py and scripts/rules.py see it.
"""

import base64
import binascii
import datetime
import re

import jobs
from placing import BIG_DECIMAL, BIG_INTEGER, DAYS, MONTHS, is_big, is_blank, is_whole, json_text
from rules import RESPONSE, Node, end_of, error_of

WORDS = {type(None): "null", bool: "boolean", int: "number", str: "string", list: "list", dict: "map"}
WIDTHS = {"byte": 8, "short": 16, "integer": 32, "long": 64}
CLOCK = "([0-9]{2}):([0-9]{2}):([0-9]{2})([.]0+)?"
DATE_TIME = re.compile(f"([0-9]{{4}})-([0-9]{{2}})-([0-9]{{2}})T{CLOCK}Z")
HTTP_DATE = re.compile(f"({'|'.join(DAYS)}), ([0-9]{{2}}) ({'|'.join(MONTHS)}) ([0-9]{{4}}) {CLOCK} GMT")
REQUESTS = {
    "boolean": "a boolean", "byte": "a byte", "short": "a short", "integer": "an integer", "long": "a long", "bigInteger": "a big integer",
    "bigDecimal": "a big decimal", "string": "a string", "blob": "a blob", "timestamp": "a timestamp",
}  # fmt: skip


class Refused(Exception):
    """A refusal, by its kind and its text without the kind's prefix."""

    PREFIXES = {"TypeMismatch": "type mismatch: ", "InvalidInput": "invalid input: ", "UnknownMember": "unknown member: "}

    def __init__(self, kind, text):
        self.kind, self.text = kind, text

    def told(self):
        return self.PREFIXES.get(self.kind, "") + self.text


def invalid(text):
    return Refused("InvalidInput", text)


# Times and numbers.


def seconds_of(text, form):
    """The seconds since 1970 that a text tells, or None."""
    if form == "epoch-seconds":
        number = int(text) if re.fullmatch("-?[0-9]+", text) else None
        return number if number is not None and is_whole(number, 64) else None
    found = (DATE_TIME if form == "date-time" else HTTP_DATE).fullmatch(text)
    if found is None:
        return None
    year, month, day = found[1], found[2], found[3]
    if form != "date-time":
        year, month, day = found[4], MONTHS.index(found[3]) + 1, found[2]
    clock = found.groups()[3:6] if form == "date-time" else found.groups()[4:7]
    try:
        time = datetime.datetime(int(year), int(month), int(day), *map(int, clock))
    except ValueError:
        return None
    return (time - datetime.datetime(1970, 1, 1)) // datetime.timedelta(seconds=1)


def whole_text(text):
    """The text of a big decimal, truncated toward zero."""
    head, _, exponent = re.sub("E", "e", text).partition("e")
    sign, digits = "-" if head.startswith("-") else "", head.lstrip("+-")
    whole, _, part = digits.partition(".")
    shift = len(whole) + int(exponent or 0)
    figures = whole + part
    if not figures.strip("0"):
        return "0"
    if shift - (len(figures) - len(figures.lstrip("0"))) > 40:
        raise Refused("Custom", f"cannot coerce bigDecimal {text} to bigInteger: integer magnitude too large")
    number = int(figures[: max(0, shift)].ljust(max(0, shift), "0") or "0")
    if not is_whole(-number if sign else number, 128):
        raise Refused("Custom", f"cannot coerce bigDecimal {text} to bigInteger: integer magnitude too large")
    return f"{sign}{number}" if number else "0"


def base64_of(text):
    try:
        data = base64.b64decode(text, validate=True)
    except (binascii.Error, ValueError):
        return None
    return data if base64.b64encode(data).decode() == text else None


# Values of the body.


def mismatch(word, value):
    return Refused("TypeMismatch", f"expected {word} document, got {WORDS[type(value)]}")


def read_fields(node, value):
    if not isinstance(value, dict):
        raise mismatch("struct (map)", value)
    members = node.members()
    return {name: read(members[name], value[name]) for name in sorted(value) if name in members}


def read(node, value):
    """What the line has of a field."""
    kind = node.kind
    if value is None or kind in ("document", "float", "double"):
        return value
    if kind in ("structure", "union"):
        return read_fields(node, value)
    if kind == "list":
        if not isinstance(value, list):
            raise mismatch("list", value)
        element = node.element()
        return [read(element, it) for it in value]
    if kind == "map":
        if not isinstance(value, dict):
            raise mismatch("map", value)
        entry = node.value()
        return {key: read(entry, value[key]) for key in sorted(value)}
    return read_scalar(kind, value)


def read_scalar(kind, value):
    is_number = isinstance(value, int) and not isinstance(value, bool)
    if kind == "boolean" and isinstance(value, bool) or kind == "string" and isinstance(value, str):
        return value
    if kind in WIDTHS and is_number:
        if not is_whole(value, WIDTHS[kind]):
            raise Refused("NumericCoercionOverflow", f"numeric value {value} out of range for {kind}")
        return value
    if kind in ("bigInteger", "bigDecimal") and (is_number or isinstance(value, str)):
        return read_big(kind, value)
    if kind == "blob" and isinstance(value, str):
        if base64_of(value) is None:
            raise Refused("Custom", "cannot base64-decode string as blob")
        return value
    if kind == "timestamp" and (is_number or isinstance(value, str)):
        return read_time(value)
    raise mismatch(kind, value)


def read_big(kind, value):
    text = str(value)
    if not isinstance(value, str):
        return text
    if kind == "bigDecimal" and is_big(text, BIG_DECIMAL) or is_big(text, BIG_INTEGER):
        return text
    if is_big(text, BIG_DECIMAL) and not BIG_INTEGER.fullmatch(text):
        return whole_text(text)
    raise invalid(f"cannot parse {text} as {kind}")


def read_time(value):
    if isinstance(value, int):
        if not is_whole(value, 64):
            raise Refused("Custom", f"epoch seconds {value} out of range")
        return value
    seconds = seconds_of(value, "date-time")
    if seconds is None:
        raise Refused("Custom", "cannot parse string as a date-time timestamp")
    return seconds


# Headers.


def decoded(value):
    try:
        return value.decode()
    except UnicodeDecodeError:
        raise invalid("header value is not UTF-8") from None


def trimmed(text):
    start, end = 0, len(text)
    while start < end and is_blank(text[start]):
        start += 1
    while start < end and is_blank(text[end - 1]):
        end -= 1
    return text[start:end]


def items(text):
    """The texts that one value of a header spells."""
    found, left = [], text
    while left:
        rest = left.lstrip(" \t")
        if rest.startswith('"'):
            quoted = re.match(r'"((?:[^"\\]|\\.)*)"[ \t]*', rest, re.DOTALL)
            if quoted is None:
                raise invalid("header list: unended quote")
            rest = rest[quoted.end() :]
            if rest and rest[0] != ",":
                raise invalid("header list: expected a comma after a quoted item")
            found.append(re.sub(r"\\(.)", r"\1", quoted[1], flags=re.DOTALL))
        else:
            item = rest.partition(",")[0]
            rest = rest[len(item) :]
            found.append(trimmed(item))
        left = rest[1:]
    return found


def dates(text, form):
    """The times that one value of a header tells."""
    pieces = text.split(",") if text else []
    if form == "http-date":
        pieces = [",".join(pieces[it : it + 2]) for it in range(0, len(pieces), 2)]
    if len(pieces) > 1 and not pieces[-1]:
        pieces.pop()
    found = [seconds_of(trimmed(it), form) for it in pieces]
    if None in found:
        raise invalid("header list: item not of the kind")
    return found


def item_value(node, text):
    """The value of an item of a header list."""
    kind = node.kind
    if kind == "string":
        return media_text(text) if "mediaType" in node.traits else text
    if kind == "blob":
        if base64_of(text) is None:
            raise invalid("failed to decode base64")
        return text
    if kind in WIDTHS and re.fullmatch("[+-]?[0-9]+", text) and is_whole(int(text), WIDTHS[kind]):
        return int(text)
    if kind == "boolean" and text in ("true", "false"):
        return text == "true"
    if kind == "bigInteger" and is_big(text, BIG_INTEGER) or kind == "bigDecimal" and is_big(text, BIG_DECIMAL):
        return text
    raise invalid("header list: item not of the kind")


def media_text(text):
    data = base64_of(text)
    if data is None:
        raise invalid("failed to decode base64")
    try:
        return data.decode()
    except UnicodeDecodeError:
        raise invalid("base64 encoded data was not valid utf-8") from None


def header_items(node, values):
    """The values of the items of a header, by the node of one."""
    if node.kind == "timestamp":
        form = node.traits.get("timestampFormat", "http-date")
        return [it for value in values for it in dates(decoded(value), form)]
    return [it for value in values for it in items(decoded(value))]


def header_value(node, name, values):
    if node.kind == "string" and "mediaType" not in node.traits:
        return only_text(values)
    if node.kind == "list":
        element = node.element()
        found = header_items(element, values)
        return found if element.kind == "timestamp" else [item_value(element, it) for it in found]
    found = header_items(node, values)
    if len(found) > 1:
        raise invalid("header list: more than one item")
    if not found:
        raise invalid(f"expected {REQUESTS[node.kind]} in header `{name}` but it held no value")
    return found[0] if node.kind == "timestamp" else item_value(node, found[0])


def only_text(values):
    texts = [decoded(it) for it in values[:2]]
    if len(texts) > 1:
        raise invalid("header list: more than one item")
    return trimmed(texts[0])


# A response.


class Response:
    def __init__(self, job):
        given = job["response"]
        self.status, self.policy = given["status"], job.get("policy", "reject")
        self.headers = [(name.lower(), jobs.octets(value)) for name, value in given.get("headers", [])]
        self.body = None if given.get("body") is None else jobs.octets(given["body"])

    def values(self, name):
        return [value for it, value in self.headers if it == name]

    def names(self, prefix):
        return list(dict.fromkeys(name for name, _ in self.headers if name.startswith(prefix)))

    def of_header(self, node):
        """A header's value in a list, empty where the member is passed over."""
        name = node.traits["httpHeader"]
        values = self.values(name.lower())
        is_text = node.kind == "string" and "mediaType" not in node.traits
        if not values or not is_text and not any(values):
            return []
        return self.unless_hidden(lambda: header_value(node, name, values), f"header `{name}`", values)

    def of_prefix(self, node):
        prefix = node.traits["httpPrefixHeaders"]
        names = self.names(prefix.lower())
        values = [it for name in names for it in self.values(name)]
        read = lambda: {name[len(prefix) :]: only_text(self.values(name)) for name in names}  # noqa: E731
        return self.unless_hidden(read, f"prefix header `{prefix}`", values)

    def unless_hidden(self, read, where, values):
        try:
            return [read()]
        except Refused as refused:
            if self.policy == "skip" and not all(map(is_utf8, values)):
                return []
            raise Refused("InvalidInput", f"failed to parse {{}} from {where}: {refused.told()}") from None

    def of_payload(self, name, node):
        if "streaming" in node.traits:
            return []
        if self.body is None:
            raise invalid(f"member `{name}` has a non-streaming @httpPayload but the response body was not buffered")
        if not self.body:
            return []
        if node.kind == "string":
            return [self.body.decode(errors="replace")]
        return [base64.b64encode(self.body).decode() if node.kind == "blob" else read(node, self.document())]

    def document(self):
        try:
            value = jobs.read(self.body or b"")
        except jobs.NoJson:
            raise invalid("body is not JSON") from None
        if jobs.has_float(value):
            raise invalid("body is not JSON")
        return value

    def member(self, name, node):
        """What the response has for a bound member, in a list."""
        if "httpHeader" in node.traits:
            return named(name, lambda: self.of_header(node))
        if "httpPrefixHeaders" in node.traits:
            return named(name, lambda: self.of_prefix(node))
        return [self.status] if "httpResponseCode" in node.traits else self.of_payload(name, node)


def named(name, read):
    try:
        return read()
    except Refused as refused:
        raise Refused(refused.kind, refused.text.replace("{}", name, 1)) from None


def is_utf8(value):
    try:
        value.decode()
    except UnicodeDecodeError:
        return False
    return True


def value_of(response, node, is_error):
    members, found = node.members(), {}
    bound = {name: it for name, it in members.items() if set(RESPONSE) & set(it.traits)}
    for name, member in bound.items():
        for value in response.member(name, member):
            found[name] = value
    if any("httpPayload" in it.traits for it in bound.values()) or len(bound) == len(members) or is_error and not response.body:
        return found
    value = response.document()
    if not isinstance(value, dict):
        raise mismatch("struct (map)", value)
    for name in sorted(value):
        if name in members and name not in bound:
            found[name] = read(members[name], value[name])
    return found


def ended(job):
    """The status and the text of a job of `response`."""
    error = error_of(job)
    try:
        if error == "":
            raise Refused("UnknownMember", code_of(job))
        shapes = job["model"]["shapes"]
        node = end_of(shapes, job["operation"], "output") if error is None else Node(shapes, error)
        line = json_text(value_of(Response(job), node, error is not None)) + b"\n"
    except Refused as refused:
        return 3, f"{refused.kind}: {refused.told()}\n".encode()
    return 0, (f"{error}\n".encode() if "code" in job else b"") + line


def code_of(job):
    head = job["code"].partition(":")[0]
    return head.partition("#")[2] if "#" in head else head
