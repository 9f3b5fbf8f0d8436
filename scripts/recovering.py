"""A slow second reading of what `recover` writes, by docs/JOBS.md: the input that a request has, or none.

Each member's value is read from the place where `request` puts it; the input that comes of it counts where it is typed and
scripts/placing.py has for it a request with the facts of the given one. The value is that of a job of `recover` whose schema is checked.
"""

import base64
import re
import urllib.parse

import jobs
import placing
from received import Refused, item_value, items, media_text, seconds_of
from rules import REQUEST, end_of, holes, http_of
from way_back import DEFAULTS, Request, by_name, facts, is_typed, request_of

NOT_PLACED = (3, b"NotPlaced: no typed input has this request\n")


class NoInput(ValueError):
    """A part is of no input."""


def request_in(job):
    """The request of a job."""
    given = job["request"]
    headers = [(name.lower().encode(), jobs.octets(value)) for name, value in given.get("headers", [])]
    body = given.get("body")
    return Request(given["method"].encode(), given["target"].encode(), headers, b"" if body is None else jobs.octets(body))


def unescaped(text):
    return utf8(urllib.parse.unquote_to_bytes(text))


def utf8(data):
    try:
        return data.decode()
    except UnicodeDecodeError:
        raise NoInput from None


def value_of(node, place, text):
    """The value whose text stands at a place."""
    if node.kind == "timestamp":
        seconds = seconds_of(text, placing.format_of(node, place))
        if seconds is None:
            raise NoInput
        return seconds
    try:
        return media_text(text) if node.kind == "string" and "mediaType" in node.traits else item_value(node, text)
    except Refused:
        raise NoInput from None


def list_of(node, text):
    """The list whose text stands in a header."""
    element = node.element()
    form = placing.format_of(element, "httpHeader")
    if element.kind != "timestamp":
        try:
            texts = items(text)
        except Refused:
            raise NoInput from None
        return [value_of(element, "httpHeader", it) for it in texts]
    parts = text.split(", ") if text else []
    if form == "http-date":
        parts = [", ".join(parts[it : it + 2]) for it in range(0, len(parts), 2)]
    return [value_of(element, "httpHeader", it) for it in parts]


class Parts:
    """The parts of a request, as the members of an input find them."""

    def __init__(self, job, request):
        http = http_of(job["model"]["shapes"], job["operation"]) or {"uri": job.get("endpoint") or "/"}
        self.literals, self.names = holes(http["uri"])
        self.request = request
        path, mark, query = request.target.decode().partition("?")
        self.path, self.pieces = path, by_name((it.partition("=")[0], it) for it in query.split("&")) if mark else {}
        self.headers = by_name(request.headers)
        _, mark, fixed = "".join(self.literals).partition("?")
        for piece in fixed.split("&") if mark else ():
            name = piece.partition("=")[0]
            if self.pieces.get(name, [])[:1] != [piece]:
                raise NoInput
            self.pieces[name] = self.pieces[name][1:]

    def labels(self):
        """The text of each hole."""
        literals = [re.escape(it) for it in "\0".join(self.literals).partition("?")[0].split("\0")]
        texts = ["(.+)" if it.endswith("+") else "([^/]+)" for it in self.names]
        found = re.fullmatch(literals[0] + "".join(map("".join, zip(texts, literals[1:]))), self.path)
        if found is None:
            raise NoInput
        return {name.removesuffix("+"): unescaped(text) for name, text in zip(self.names, found.groups())}

    def query(self, name):
        return [unescaped(it.partition("=")[2]) for it in self.pieces.get(placing.escaped(name), [])]

    def header(self, node):
        """The value of a header in a list, which is empty where it isn't there."""
        values = self.headers.get(node.traits["httpHeader"].lower().encode(), [])
        if not values:
            return []
        text = utf8(values[0])
        return [list_of(node, text) if node.kind == "list" else value_of(node, "httpHeader", text)]

    def entries(self, prefix):
        prefix = prefix.lower()
        named = {name.decode(): values for name, values in self.headers.items()}
        found = {it[len(prefix) :]: utf8(named[it][0]) for it in named if it.startswith(prefix) and it not in DEFAULTS}
        return [found] if found else []

    def query_map(self, node, taken):
        has_lists = node.value().kind == "list"
        found = {}
        for name, pieces in self.pieces.items():
            if unescaped(name) not in taken and pieces:
                values = [unescaped(it.partition("=")[2]) for it in pieces]
                found[unescaped(name)] = values if has_lists else values[0]
        return [found] if found else []

    def payload(self, node):
        body = self.request.body
        if not body:
            return []
        if node.kind in ("blob", "string"):
            return [base64.b64encode(body).decode() if node.kind == "blob" else utf8(body)]
        return [json_of(body)]


def json_of(body):
    try:
        value = jobs.read(body)
    except jobs.NoJson:
        raise NoInput from None
    if jobs.has_float(value):
        raise NoInput
    return value


def member(parts, node, place, labels, taken, name):
    """What a request has of a bound member, in a list."""
    if place == "httpLabel":
        return [value_of(node, place, labels[name])] if name in labels else []
    if place == "httpQuery":
        texts = parts.query(node.traits[place])
        element = node.element() if node.kind == "list" else node
        values = [value_of(element, place, it) for it in texts]
        return values[:1] if node.kind != "list" or not values else [values]
    if place == "httpQueryParams":
        return parts.query_map(node, taken)
    if place == "httpHeader":
        return parts.header(node)
    return parts.entries(node.traits[place]) if place == "httpPrefixHeaders" else parts.payload(node)


def candidate(job, request):
    """The input that the parts of a request tell."""
    members = end_of(job["model"]["shapes"], job["operation"], "input").members()
    parts, found = Parts(job, request), {}
    labels = parts.labels()
    places = {name: next((it for it in REQUEST if it in node.traits), None) for name, node in members.items()}
    taken = {node.traits["httpQuery"] for name, node in members.items() if places[name] == "httpQuery"}
    for name, node in members.items():
        if places[name] is not None:
            for value in member(parts, node, places[name], labels, taken, name):
                found[name] = value
    if None in places.values():
        fields = json_of(request.body)
        if not isinstance(fields, dict) or any(it not in members or places[it] is not None for it in fields):
            raise NoInput
        found.update(fields)
    return found


def ended(job):
    """The status and the text of a job of `recover`."""
    request = request_in(job)
    try:
        asked = {**job, "input": candidate(job, request)}
    except NoInput:
        return NOT_PLACED
    status, text = placing.ended("request", asked)
    if status != 0 or facts(request_of(text)) != facts(request) or not is_typed(asked, request):
        return NOT_PLACED
    return 0, placing.json_text(asked["input"]) + b"\n"
