"""The JSON of AWS's protocols by a node, a slow second reading by docs/JOBS.md: the text of a value that follows its node, what a body is
read as, and where a value doesn't follow its node.

A node is one of scripts/rules.py, None where nothing is asked. A body is read into what `response` reads: texts stand for big numbers, and
whole numbers for times.
"""

import json
import re

import jobs
from placing import YEARS, document, is_of_kind, is_whole, json_text, natural, refuse, time_text
from received import Refused, seconds_of
from rules import Node

WHOLE = ("byte", "short", "integer", "long", "timestamp")
INTEGER = re.compile("-?(0|[1-9][0-9]*)")
NUMBER = re.compile("(-?)(0|[1-9][0-9]*)([.][0-9]+)?([eE][+-]?[0-9]+)?")
FRACTION = re.compile("[.][0-9]+$")
OFFSET = re.compile("([+-])([0-9]{2}):([0-9]{2})")


# Names.


def fields_of(node, bindings=()):
    """The members that stand in the object of a structure, at whose top those stand elsewhere that have one of these traits."""
    return {name: it for name, it in node.members().items() if not set(bindings) & set(it.traits)}


def in_json(name, member):
    return member.traits.get("jsonName", name)


def have_own_names(fields):
    """Whether no name is that of two fields."""
    names = [it for name, member in fields.items() for it in {name, in_json(name, member)}]
    return len(set(names)) == len(names)


def names_stand(shapes, top, bindings, reached):
    """Whether no name is that of two fields of the message, nor of two members of a structure that a value below its top can be of."""
    parts = [Node(shapes, it["target"]) for name in reached for it in parts_of(shapes[name])]
    return have_own_names(fields_of(top, bindings)) and all(have_own_names(it.members()) for it in parts)


def parts_of(shape):
    """The members, the element or the value of a shape, as the model has them."""
    found = jobs.members(shape, shape["type"])
    return found[1:] if shape["type"] == "map" else found


# Writing.


def format_of(node):
    """The format of a time in a body, None where that is its seconds."""
    found = node.traits.get("timestampFormat") if node.kind == "timestamp" else None
    return None if found == "epoch-seconds" else found


def written(node, value, has_names):
    """The text of a value that follows its node."""
    if node is None:
        return json_text(document(None, value)).decode()
    if value is None or node.kind == "document":
        return json_text(value).decode()
    if node.kind in ("structure", "union"):
        members = node.members()
        return fields_text([(it, members[it], value[it]) for it in sorted(value)], has_names).decode()
    if node.kind == "map":
        return object_of([(it, written(node.value(), value[it], has_names)) for it in sorted(value)])
    if node.kind == "list":
        return "[" + ",".join(written(node.element(), it, has_names) for it in value) + "]"
    if node.kind in ("bigInteger", "bigDecimal"):
        return str(value)
    return json_text(time_text(value, format_of(node)) if format_of(node) else value).decode()


def fields_text(fields, has_names):
    """The bytes of an object of fields, each a name, a member, which is None where there is none of the name, and a value."""
    named = [(in_json(name, it) if has_names and it else name, written(it, value, has_names)) for name, it, value in fields]
    return object_of(named).encode()


def object_of(named):
    return "{" + ",".join(f"{json_text(name).decode()}:{text}" for name, text in named) + "}"


# Values that don't follow their nodes.


def test(node, value, path):
    """Refuses the first place, in the order of the writes, that doesn't follow its node."""
    if value is None:
        return
    place = path.removeprefix(".")
    if not is_of_kind(node.kind, value):
        refuse("UnsupportedOperation", f"cannot write {natural(value)} to {place} of type {node.kind}")
    if node.kind == "union" and len(value) != 1:
        refuse("InvalidInput", f"union {place} has {len(value)} members")
    if format_of(node) and value not in YEARS:
        refuse("Custom", f"failed to format timestamp at {place}: year outside 1 to 9999")
    pattern = {"bigInteger": INTEGER, "bigDecimal": NUMBER}.get(node.kind)
    if pattern and not pattern.fullmatch(str(value)):
        refuse("InvalidInput", f"{value} at {place} is no number of JSON")
    test_parts(node, value, path)


def test_natural(node, value, path):
    """The same of a value that is taken by its own form."""
    if value is not None and natural(value) != node.kind:
        refuse("UnsupportedOperation", f"cannot write {natural(value)} to {path} of type {node.kind}")
    for place, part in enumerate(value if isinstance(value, list) else ()):
        test_natural(node.element(), part, f"{path}[{place}]")
    for key in sorted(value if isinstance(value, dict) else ()):
        test_natural(node.value(), value[key], f'{path}["{key}"]')


def test_parts(node, value, path):
    if node.kind in ("structure", "union"):
        members = node.members()
        for name in sorted(value):
            test_field(members.get(name), value[name], f"{path}.{name}")
    if node.kind == "list":
        for place, part in enumerate(value):
            test(node.element(), part, f"{path}[{place}]")
    if node.kind == "map":
        for key in sorted(value):
            test(node.value(), value[key], f'{path}["{key}"]')


def test_field(member, value, path):
    if member is None:
        refuse("UnknownMember", path.removeprefix("."))
    test(member, value, path)


# Reading.


class Number:
    """A number by its text."""

    def __init__(self, text):
        self.text = text


class Fields(list):
    """The fields of an object, in order."""

    def last(self, name):
        """The last value under a name, None where there is none."""
        return next((value for it, value in reversed(self) if it == name), None)


def json_of(data):
    """The value of a body."""
    try:
        text = data.decode()
        value = json.loads(text, parse_int=Number, parse_float=Number, parse_constant=jobs.refuse, object_pairs_hook=Fields)
    except (ValueError, RecursionError) as error:
        raise jobs.NoJson from error
    if jobs.has_lone_surrogate(text) or levels(value) > jobs.MOST_LEVELS:
        raise jobs.NoJson
    return value


def levels(value):
    """How deep a value of a body is nested."""
    deepest, left = 0, [(value, 1)]
    while left:
        value, level = left.pop()
        if isinstance(value, list):
            deepest = max(deepest, level)
            left += [(it[1] if isinstance(value, Fields) else it, level + 1) for it in value]
    return deepest


class Reader:
    """What reads a body: whether it has names of JSON, and whether fractions of seconds are dropped."""

    def __init__(self, has_names, floors):
        self.has_names, self.floors = has_names, floors

    def value(self, node, value, path="", bindings=()):
        if isinstance(value, Fields):
            return self.object(node, value, path, bindings)
        if isinstance(value, list):
            element = node.element() if node and node.kind == "list" else node if node and node.kind == "document" else None
            return [self.value(element, it, f"{path}[{place}]") for place, it in enumerate(value)]
        if isinstance(value, Number):
            return self.number(node, value.text, path)
        return self.text(node, value, path) if isinstance(value, str) else value

    def object(self, node, value, path, bindings):
        kind, found = node.kind if node else None, {}
        fields = fields_of(node, bindings) if kind in ("structure", "union") else {}
        own = {in_json(name, it): name for name, it in reversed(fields.items())} if self.has_names else {}
        for name, part in value:
            if self.has_names and name in fields:
                name = in_json(name, fields[name])
            else:
                name = own.get(name, name)
            below = node if kind == "document" else node.value() if kind == "map" else fields.get(name)
            step = f".{name}" if kind in ("structure", "union") else f'["{name}"]'
            found[name] = self.value(below, part, path + step)
        return found

    def number(self, node, text, path):
        kind = node.kind if node else None
        plain = jobs.whole(text) if INTEGER.fullmatch(text) else None
        plain = plain if isinstance(plain, int) else None
        if kind is None:
            return plain
        if kind == "bigDecimal" or kind == "bigInteger" and INTEGER.fullmatch(text):
            return text
        if kind in WHOLE:
            plain = exact(text, self.floors and kind == "timestamp") if plain is None else plain
            plain = plain if plain is not None and -(2**63) <= plain < 2**64 else None
        if kind == "bigInteger":
            whole = exact(text, False)
            plain = str(whole) if whole is not None and is_whole(whole, 128) else None
        return plain if plain is not None else unread(text, kind, path)

    def text(self, node, text, path):
        kind = node.kind if node else None
        if kind in ("bigInteger", "bigDecimal") and INTEGER.fullmatch(text):
            plain = jobs.whole(text)
            return plain if isinstance(plain, int) else text
        if kind != "timestamp" or format_of(node) is None:
            return text
        if text.endswith(" "):
            return text[:-1]
        seconds = seconds_in(text, format_of(node), self.floors)
        return seconds if seconds is not None else unread(text, kind, path)


def unread(text, kind, path):
    where = f" at {path.removeprefix('.')}" if path else ""
    raise Refused("InvalidInput", f"cannot read {text} as {kind}{where}")


def exact(text, floors):
    """The number of a text where it is whole, and else the next one below it or None. None where it has more than 60 digits."""
    sign, whole, part, exponent = NUMBER.fullmatch(text).groups()
    digits = whole + (part or ".")[1:]
    point = len(whole) + (int(exponent[1:]) if exponent else 0)
    if not digits.strip("0"):
        return 0
    if point - (len(digits) - len(digits.lstrip("0"))) > 60:
        return None
    front = int(digits[: max(0, point)].ljust(max(0, point), "0") or "0")
    has_fraction = bool(digits[max(0, point) :].strip("0"))
    if has_fraction and not floors:
        return None
    return -front - has_fraction if sign else front


def seconds_in(text, form, floors):
    """The seconds since 1970 that a text of a body spells, or None."""
    seconds = seconds_of(text, form)
    if seconds is not None:
        return seconds
    if form == "http-date":
        return seconds_at(text.removesuffix(" GMT"), " GMT", form, floors) if text.endswith(" GMT") else None
    text = text.upper() if text.isascii() else text
    if text.endswith("Z"):
        return seconds_at(text[:-1], "Z", form, floors)
    offset = OFFSET.fullmatch(text[-6:])
    if offset is None or int(offset[2]) > 23 or int(offset[3]) > 59:
        return None
    seconds, ahead = seconds_at(text[:-6], "Z", form, floors), 3600 * int(offset[2]) + 60 * int(offset[3])
    if seconds is None:
        return None
    seconds += -ahead if offset[1] == "+" else ahead
    return seconds if seconds in YEARS else None


def seconds_at(front, zone, form, floors):
    return seconds_of((FRACTION.sub("", front) if floors else front) + zone, form)
