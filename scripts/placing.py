"""A slow second reading of what `request`, `rpc` and `answer` write, by docs/JOBS.md and docs/MODEL.md: the request or the response of a
job's writes, or the line of its first fault.

The value is that of a job of the command whose schema is checked, as scripts/jobs.py and scripts/rules.py see it.
"""

import base64
import binascii
import collections
import datetime
import json
import re

from jobs import MOST_TARGET, TOKEN, is_target
from rules import REQUEST, RESPONSE, end_of, holes, http_of

UNRESERVED = b"ABCDEFGHIJKLMNOPQRSTUVWXYZabcdefghijklmnopqrstuvwxyz0123456789-._~"
WIDTHS = {"byte": 8, "short": 16, "integer": 32, "long": 64, "timestamp": 64}
BIG_INTEGER = re.compile("[+-]?[0-9]+")
BIG_DECIMAL = re.compile(r"[+-]?([0-9]+\.?[0-9]*|\.[0-9]+)([eE][+-]?[0-9]+)?")
YEARS = range(-62_135_596_800, 253_402_300_800)
EPOCH = datetime.datetime(1970, 1, 1)
DAYS, MONTHS = "Mon Tue Wed Thu Fri Sat Sun".split(), "Jan Feb Mar Apr May Jun Jul Aug Sep Oct Nov Dec".split()
CONTENT = "application/json"

# A write: its member's name, its node, which is None where no member has the name, and its JSON value.
Write = collections.namedtuple("Write", "name node value")


class Fault(Exception):
    """The first fault, as its line."""


def refuse(kind, text):
    prefixes = {"UnknownMember": "unknown member: ", "UnsupportedOperation": "unsupported operation: ", "InvalidInput": "invalid input: "}
    raise Fault(f"{kind}: {prefixes.get(kind, '')}{text}\n")


# Values.


def is_whole(value, bits):
    return isinstance(value, int) and not isinstance(value, bool) and -(2 ** (bits - 1)) <= value < 2 ** (bits - 1)


def is_big(value, pattern):
    if not isinstance(value, str) or not pattern.fullmatch(value):
        return False
    return is_whole(int(re.sub("[eE].*|[.]", "", value)), 128)


def is_base64(value):
    try:
        return isinstance(value, str) and base64.b64encode(base64.b64decode(value, validate=True)).decode() == value
    except (binascii.Error, ValueError):
        return False


def is_of_kind(kind, value):
    """Whether a JSON value has the form of a kind."""
    if kind in WIDTHS:
        return is_whole(value, WIDTHS[kind])
    if kind == "bigInteger":
        return isinstance(value, int) and not isinstance(value, bool) or is_big(value, BIG_INTEGER)
    if kind == "bigDecimal":
        return is_big(value, BIG_DECIMAL)
    if kind == "blob":
        return is_base64(value)
    types = {"boolean": bool, "string": str, "list": list, "map": dict, "structure": dict, "union": dict}
    return kind == "document" or kind in types and isinstance(value, types[kind])


def natural(value):
    """The word of a value that is taken by its own form."""
    if isinstance(value, bool) or value is None:
        return "null" if value is None else "boolean"
    if isinstance(value, int):
        return "long" if is_whole(value, 64) else "bigInteger"
    return "string" if isinstance(value, str) else "list" if isinstance(value, list) else "map"


def document(node, value):
    """What stands in a body for a value, of a node or of none."""
    kind = node.kind if node is not None and is_of_kind(node.kind, value) else None
    if kind == "document":
        return value
    if kind == "list" or kind is None and isinstance(value, list):
        element = node.element() if kind else None
        return [document(element, it) for it in value]
    if kind == "map":
        entry = node.value()
        return {key: document(entry, it) for key, it in value.items()}
    if kind in ("structure", "union") or kind is None and isinstance(value, dict):
        members = node.members() if kind else {}
        return {name: document(members.get(name), it) for name, it in value.items()}
    if kind == "bigInteger" or kind is None and natural(value) == "bigInteger":
        return str(value)
    return value


def json_text(value):
    return json.dumps(value, separators=(",", ":"), ensure_ascii=False, sort_keys=True).encode()


def writes_of(members, given):
    pairs = [(it, given[it]) for it in sorted(given)] if isinstance(given, dict) else given
    return [Write(name, members.get(name), value) for name, value in pairs]


# Texts.


def escaped(text):
    return "".join(chr(it) if it in UNRESERVED else f"%{it:02X}" for it in text.encode())


def escaped_label(text, is_greedy):
    return "/".join(map(escaped, text.split("/"))) if is_greedy else escaped(text)


def time_text(seconds, form):
    if form == "epoch-seconds":
        return str(seconds)
    time = EPOCH + datetime.timedelta(seconds=seconds)
    clock = f"{time.hour:02}:{time.minute:02}:{time.second:02}"
    if form == "date-time":
        return f"{time.year:04}-{time.month:02}-{time.day:02}T{clock}Z"
    return f"{DAYS[time.weekday()]}, {time.day:02} {MONTHS[time.month - 1]} {time.year:04} {clock} GMT"


def format_of(node, place):
    return node.traits.get("timestampFormat", "http-date" if place == "httpHeader" else "date-time")


def text_of(node, place, value):
    """The text of a scalar or a blob at its place."""
    if node.kind == "timestamp":
        return time_text(value, format_of(node, place))
    if node.kind == "string" and "mediaType" in node.traits:
        return base64.b64encode(value.encode()).decode()
    return {True: "true", False: "false"}[value] if node.kind == "boolean" else str(value)


def list_text(element, value):
    """The text of a list in a header."""
    return ", ".join(quoted(element, text_of(element, "httpHeader", it)) for it in value)


def quoted(element, text):
    is_plain = text and not is_blank(text[0]) and not is_blank(text[-1]) and not set(text) & set('",()')
    if element.kind == "timestamp" or is_plain:
        return text
    return '"' + text.replace("\\", "\\\\").replace('"', '\\"') + '"'


def is_blank(character):
    """White space of Unicode, which has no 0x1C to 0x1F."""
    return character.isspace() and character not in "\x1c\x1d\x1e\x1f"


def is_header_value(text):
    return all(it == 9 or 32 <= it <= 126 or it >= 128 for it in text.encode())


# What is wrong with writes.


def test_kind(write, is_bound):
    node, value = write.node, write.value
    if node is None:
        refuse("UnknownMember", write.name)
    if is_of_kind(node.kind, value) or value is None and not is_bound:
        return
    refuse("UnsupportedOperation", f"cannot write {natural(value)} to member {write.name} of type {node.kind}")


def test_parts(write, node, value):
    """Each element, or value of an entry, of a list or a map."""
    entry = node.element() if node.kind == "list" else node.value()
    for part in value if node.kind == "list" else (value[it] for it in sorted(value)):
        if not is_of_kind(entry.kind, part):
            refuse("UnsupportedOperation", f"cannot write {natural(part)} to an element of member {write.name} of type {entry.kind}")
        if entry.kind == "list":
            test_parts(write, entry, part)


def test_times(write, place):
    node = write.node.element() if write.node.kind == "list" else write.node
    values = write.value if write.node.kind == "list" else [write.value]
    if node.kind == "timestamp" and format_of(node, place) != "epoch-seconds" and any(it not in YEARS for it in values):
        refuse("Custom", "failed to format timestamp: year outside 1 to 9999")


def test_first(write, place):
    """The first write of a bound member that is no payload."""
    if write.node.kind in ("list", "map"):
        test_parts(write, write.node, write.value)
    test_times(write, place)
    if place == "httpResponseCode" and write.value not in range(100, 1000):
        refuse("Custom", "response code outside 100 to 999")
    for name, value in headers_of(write, place):
        where = f"header `{name}`" if place == "httpHeader" else f"headers with prefix `{write.node.traits[place]}`"
        wrong = "name" if not TOKEN.fullmatch(name) else "value" if not is_header_value(value) else None
        if wrong is not None:
            refuse("InvalidInput", f"cannot serialize {write.name} to {where}: invalid header {wrong}")


def headers_of(write, place):
    """The headers of a write, with their names as the traits spell them."""
    node, value = write.node, write.value
    if place == "httpHeader":
        text = list_text(node.element(), value) if node.kind == "list" else text_of(node, place, value)
        return [(node.traits[place], text)]
    return [(node.traits[place] + it, value[it]) for it in sorted(value)] if place == "httpPrefixHeaders" else []


# What a message is made of.


class Message:
    """The first writes of bound members, and the others, of tested writes."""

    def __init__(self, members, given, bindings):
        self.members, self.bindings = members, bindings
        self.first, self.fields = {}, {}
        for write in writes_of(members, given):
            place = self.place(write.node)
            test_kind(write, place is not None)
            if place is None:
                self.fields[write.name] = document(write.node, write.value)
            elif write.name not in self.first:
                if place != "httpPayload":
                    test_first(write, place)
                self.first[write.name] = write

    def place(self, node):
        return next((it for it in self.bindings if node is not None and it in node.traits), None)

    def at(self, place):
        """The first writes of the members with a trait, in their order."""
        return [it for it in self.first.values() if self.place(it.node) == place]

    def body(self):
        """The bytes of the body, and the content type of one that the codec made."""
        payload = next((it for it in self.members if self.place(self.members[it]) == "httpPayload"), None)
        if payload is None:
            is_made = any(self.place(it) is None for it in self.members.values())
            return (json_text(self.fields), CONTENT) if is_made else (b"", None)
        node, write = self.members[payload], self.first.get(payload)
        if node.kind == "blob":
            return base64.b64decode(write.value) if write else b"", None
        if node.kind == "string":
            return write.value.encode() if write else b"", None
        return json_text(document(node, write.value)) if write else b"", CONTENT

    def headers(self, body, content, omit):
        found = {}
        for write in self.first.values():
            for name, value in headers_of(write, self.place(write.node)):
                found[name.lower()] = value
        if content is not None and not omit.get("contentType"):
            found.setdefault("content-type", content)
        if (body or content is not None) and not omit.get("contentLength"):
            found.setdefault("content-length", str(len(body)))
        return found

    def pairs(self):
        names = {it.traits["httpQuery"] for it in self.members.values() if "httpQuery" in it.traits and self.place(it) == "httpQuery"}
        for write in self.first.values():
            node, value = write.node, write.value
            if self.place(node) == "httpQuery":
                element = node.element() if node.kind == "list" else node
                for it in value if node.kind == "list" else [value]:
                    yield node.traits["httpQuery"], text_of(element, "httpQuery", it)
            elif self.place(node) == "httpQueryParams":
                for key in sorted(set(value) - names):
                    for it in value[key] if isinstance(value[key], list) else [value[key]]:
                        yield key, it

    def target(self, template):
        literals, names = holes(template)
        labels = {it.name: text_of(it.node, "httpLabel", it.value) for it in self.at("httpLabel")}
        found = literals[0]
        for name, literal in zip(names, literals[1:]):
            text = labels.get(name.removesuffix("+"))
            if not text:
                refuse("InvalidInput", f"{name.removesuffix('+')} was missing: cannot be empty or unset")
            found += escaped_label(text, name.endswith("+")) + literal
        mark = "&" if "?" in found else "?"
        for name, value in self.pairs():
            found += f"{mark}{escaped(name)}={escaped(value)}"
            mark = "&"
        return tested_target(found)


def tested_target(text):
    if len(text.encode()) > MOST_TARGET:
        refuse("Custom", "invalid endpoint URI: longer than 65534 bytes")
    if not is_target(text):
        refuse("Custom", "invalid endpoint URI: not a legal request target")
    return text


def shown(first, headers, body):
    lines = "".join(f"{name}: {value}\n" for name, value in headers.items())
    return f"{first}\n{lines}\n".encode() + body


def request(job):
    shapes, name = job["model"]["shapes"], job["operation"]
    http = http_of(shapes, name) or {"method": "GET", "uri": job.get("endpoint") or "/"}
    return placed(job, http, Message(end_of(shapes, name, "input").members(), job["input"], REQUEST))


def placed(job, http, message):
    target = message.target(http["uri"])
    body, content = message.body()
    return shown(f"{http['method']} {target}", message.headers(body, content, job.get("omit", {})), body)


def posted(job):
    """The request of `rpc`, which tests no write."""
    shapes = job["model"]["shapes"]
    input = end_of(shapes, job["operation"], "input")
    fields = {it.name: document(it.node, it.value) for it in writes_of(input.members(), job["input"])}
    body = json_text(fields)
    return shown(*call_of(job, body, CONTENT), body)


def call_of(job, body, content):
    """The first line and the headers of a body that is posted whole."""
    target = tested_target(job.get("endpoint") or "/")
    return f"POST {target}", Message({}, {}, ()).headers(body, content, job.get("omit", {}))


def response(job):
    shapes, name = job["model"]["shapes"], job["operation"]
    message = Message(end_of(shapes, name, "output").members(), job["output"], RESPONSE)
    codes = [it.value for it in message.at("httpResponseCode")]
    status = codes[0] if codes else job.get("status", (http_of(shapes, name) or {}).get("code", 200))
    body, content = message.body()
    return shown(str(status), message.headers(body, content, {}), body)


PLACED = {"request": request, "rpc": posted, "answer": response}


def ended(command, job):
    """The status and the text of a job of one of these commands."""
    try:
        return 0, PLACED[command](job)
    except Fault as fault:
        return 3, fault.args[0].encode()
