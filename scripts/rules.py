"""A slow second reading of schemas: whether those of a job are checked, by the list of rules in docs/JOBS.md, and if not, which rule is
broken first, and by which member.

The value is that of a job of the command, as scripts/jobs.py sees it.
"""

import collections
import re

from jobs import PRELUDE, TOKEN, is_target

TYPES = {"enum": "string", "intEnum": "integer", "set": "list"}
SCALARS = set("boolean byte short integer long bigInteger bigDecimal string timestamp".split())
FORM = "list map structure union document blob string".split()
REQUEST = ("httpHeader", "httpQuery", "httpLabel", "httpPrefixHeaders", "httpQueryParams", "httpPayload")
RESPONSE = ("httpHeader", "httpPrefixHeaders", "httpResponseCode", "httpPayload")

# A rule's number in docs/JOBS.md, and the name of the member that breaks it, or None.
Broken = collections.namedtuple("Broken", "rule member")


def kind_of(shapes, target):
    name = target.removeprefix(PRELUDE)
    if name == target:
        return TYPES.get(shapes[target]["type"], shapes[target]["type"])
    name = name.removeprefix("Primitive")
    return "structure" if name == "Unit" else name[0].lower() + name[1:]


def shape_of(shapes, target):
    """The shape of a name; of one of the prelude nothing is to be known but its kind."""
    return {} if target.startswith(PRELUDE) else shapes[target]


def traits_of(holder):
    return {name.removeprefix(PRELUDE): value for name, value in holder.get("traits", {}).items() if name.startswith(PRELUDE)}


class Node:
    """A shape, or a member: its kind, its traits with those that its target passes on, and what it holds."""

    def __init__(self, shapes, target, holder=None):
        self.shapes, self.shape, self.kind = shapes, shape_of(shapes, target), kind_of(shapes, target)
        self.traits = traits_of(holder or {})
        self.take(self.shape, "timestampFormat", "mediaType", "streaming")
        if self.kind == "list":
            member = self.shape["member"]
            if kind_of(shapes, member["target"]) == "timestamp":
                self.take(member, "timestampFormat")
                self.take(shape_of(shapes, member["target"]), "timestampFormat")

    def take(self, holder, *names):
        """Has the traits of another one that it has not so far."""
        for name, value in traits_of(holder).items():
            if name in names:
                self.traits.setdefault(name, value)

    def part(self, holder):
        return Node(self.shapes, holder["target"], holder)

    def element(self):
        return self.part(self.shape["member"])

    def key(self):
        return self.part(self.shape["key"])

    def value(self):
        return self.part(self.shape["value"])

    def members(self):
        """The members by their names, in byte order."""
        found = self.shape.get("members", {}) if self.kind in ("structure", "union") else {}
        return {name: self.part(found[name]) for name in sorted(found)}

    def is_plain_string(self):
        return self.kind == "string" and "mediaType" not in self.traits


def holes(template):
    """The literals of a template, and the names of the holes between them, each with its `+`."""
    parts = re.split(r"\{([^}]*)\}", template)
    return parts[::2], parts[1::2]


def has_kind(node, kinds):
    return node.kind in kinds or node.kind == "list" and node.element().kind in kinds


def is_plain_list(node):
    element = node.element()
    return "mediaType" not in element.traits and element.traits.get("timestampFormat") == node.traits.get("timestampFormat")


def is_text_map(node, has_lists):
    if node.kind != "map" or not node.key().is_plain_string():
        return False
    value = node.value()
    is_list = value.kind == "list" and "mediaType" not in value.traits and value.element().is_plain_string()
    return value.is_plain_string() or has_lists and is_list


def broken_member(node, bindings):
    """The first rule of one member that it breaks, or None."""
    has = {name for name in bindings if name in node.traits}
    is_input = bindings is REQUEST
    if len(has) > 1:
        return 2 if is_input else 27
    if node.kind in ("float", "double"):
        return 3
    if "httpLabel" in has and node.kind not in SCALARS:
        return 4
    if "httpQuery" in has and not has_kind(node, SCALARS):
        return 5
    if "httpHeader" in has and not has_kind(node, SCALARS | {"blob"}):
        return 6
    if node.kind == "list" and has & {"httpHeader", "httpQuery"} and not is_plain_list(node):
        return 7
    if "httpPrefixHeaders" in has and not is_text_map(node, False):
        return 8
    if "httpQueryParams" in has and not is_text_map(node, True):
        return 9
    if "httpResponseCode" in has and node.kind != "integer":
        return 28
    return None


def broken_together(members, bindings):
    """The first rule of all members together, or None."""
    having = {name: [it for it in members if name in members[it].traits] for name in bindings}
    payloads = having["httpPayload"]
    if len(payloads) > 1:
        return Broken(10, None)
    if payloads and members[payloads[0]].kind not in FORM:
        return Broken(11, None)
    if payloads and any(not set(bindings) & set(it.traits) for it in members.values()):
        return Broken(12, None)
    for rule, name in ((13, "httpPrefixHeaders"), (14, "httpQueryParams"), (29, "httpResponseCode")):
        if len(having.get(name, ())) > 1:
            return Broken(rule, None)
    return broken_names(members, having)


def broken_names(members, having):
    names = {it: members[it].traits["httpHeader"] for it in having["httpHeader"]}
    for it, name in names.items():
        if not TOKEN.fullmatch(name):
            return Broken(15, it)
    lower = [it.lower() for it in names.values()]
    if len(set(lower)) < len(lower):
        return Broken(16, None)
    for it in having["httpPrefixHeaders"]:
        prefix = members[it].traits["httpPrefixHeaders"]
        if prefix and not TOKEN.fullmatch(prefix):
            return Broken(17, it)
        if any(name.startswith(prefix.lower()) for name in lower):
            return Broken(18, it)
    queries = [members[it].traits["httpQuery"] for it in having.get("httpQuery", ())]
    return Broken(19, None) if len(set(queries)) < len(queries) else None


def broken_template(members, http):
    """The first rule of smithy.api#http, or None."""
    literals, names = holes(http["uri"])
    labels = sorted(it for it in members if "httpLabel" in members[it].traits)
    rules = (
        (20, TOKEN.fullmatch(http["method"])),
        (21, "{" not in literals[-1]),
        (22, is_target("a".join(literals))),
        (23, all(it.endswith("/") and "?" not in it for it in literals[:-1]) and all(it[:1] in ("", "/", "?") for it in literals[1:])),
        (24, sorted(it.removesuffix("+") for it in names) == labels),
        (25, not any(it.endswith("+") for it in names[:-1])),
        (26, http["uri"].startswith("/")),
    )
    return next((Broken(number, None) for number, holds in rules if not holds), None)


def broken(node, bindings, http=None):
    """The first rule that a schema breaks, or None."""
    if node.kind != "structure":
        return Broken(1, None)
    members = node.members()
    for name, member in members.items():
        rule = broken_member(member, bindings)
        if rule is not None:
            return Broken(rule, name)
    return broken_together(members, bindings) or (broken_template(members, http) if http is not None else None)


def end_of(shapes, name, end):
    """The node of an operation's input or output."""
    return Node(shapes, shapes[name].get(end, {}).get("target", PRELUDE + "Unit"))


def http_of(shapes, name):
    return shapes[name].get("traits", {}).get(PRELUDE + "http")


def error_of(job):
    """The name of the error that a job of `response` is of; "" where there is none with its code, and None where it is none."""
    if "error" in job:
        return job["error"]
    if "code" not in job:
        return None
    head = job["code"].partition(":")[0]
    code = head.partition("#")[2] if "#" in head else head
    operation = job["model"]["shapes"][job["operation"]]
    for names in ([it["target"] for it in operation.get("errors", [])], job.get("serviceErrors", [])):
        found = sorted(it for it in names if it.partition("#")[2] == code)
        if found:
            return found[0]
    return ""


def broken_in(command, job):
    """The first rule that the schema of a job breaks, or None."""
    if command in ("rpc", "responses") or command == "route" and not job["operations"]:
        return None
    shapes = job["model"]["shapes"]
    if command == "answer":
        return broken(end_of(shapes, job["operation"], "output"), RESPONSE)
    if command == "response":
        error = error_of(job)
        node = end_of(shapes, job["operation"], "output") if error is None else Node(shapes, error) if error else None
        return broken(node, RESPONSE) if node else None
    names = job["operations"] if command == "route" else [job["operation"]]
    found = (broken(end_of(shapes, it, "input"), REQUEST, http_of(shapes, it)) for it in names)
    return next((it for it in found if it), None)


def operation_of(job):
    """The first operation of a job of `route` whose schema breaks a rule."""
    shapes = job["model"]["shapes"]
    return next(it for it in job["operations"] if broken(end_of(shapes, it, "input"), REQUEST, http_of(shapes, it)))
