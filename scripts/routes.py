"""A slow second reading of which operation a request is of, by docs/JOBS.md: the routes of operations, which of them match, beat each
other and conflict.
"""

import collections
import re

from jobs import is_target
from rules import holes, http_of

# A method; the segments of the path, each a text, or HOLE or GREEDY; and the first piece of each name of the query.
Route = collections.namedtuple("Route", "method segments pieces")
HOLE, GREEDY = object(), object()


def parts(target):
    """The segments of a target's path, and the first piece of each name of its query."""
    path, mark, query = target.partition("?")
    pieces = {}
    for piece in query.split("&") if mark else ():
        pieces.setdefault(piece.partition("=")[0], piece)
    return path.split("/")[1:], pieces


def route_of(http):
    """The route of an operation, or None where its template is not routable."""
    literals, names = holes(http["uri"])
    bare = [it.removesuffix("+") for it in names]
    if not http["uri"].startswith("/") or len(set(bare)) < len(bare) or not is_target("a".join(literals)):
        return None
    path, mark, query = http["uri"].partition("?")
    segments = [segment_of(it) for it in path.split("/")[1:]]
    if "{" in query or any(isinstance(it, str) and "{" in it for it in segments) or GREEDY in segments[:-1]:
        return None
    return Route(http["method"], segments, parts("/" + mark + query)[1])


def segment_of(text):
    """A hole, with a name, or a text as it is."""
    hole = re.fullmatch(r"\{([^}]+?)(\+?)\}", text)
    return text if hole is None or hole[0] == "{+}" else GREEDY if hole[2] else HOLE


def takes_rest(segments):
    """Whether a greedy hole takes these segments, one or more."""
    return len(segments) > 1 or len(segments) == 1 and segments[0] != ""


def are_within(inner, outer):
    """Whether the second segments match whatever the first ones do. Those of a request have no holes."""
    for at, segment in enumerate(outer):
        rest = inner[at:]
        if segment is GREEDY:
            return takes_rest(rest)
        if not rest or rest[0] is GREEDY:
            return False
        if segment is HOLE and rest[0] == "" or segment is not HOLE and rest[0] != segment:
            return False
    return len(inner) == len(outer)


def meet(one, other):
    """Whether some segments are matched by both."""
    for at in range(max(len(one), len(other))):
        left, right = one[at:], other[at:]
        if not left or not right:
            return False
        if GREEDY in (left[0], right[0]):
            return takes_rest(left) and takes_rest(right)
        if HOLE in (left[0], right[0]):
            if "" in (left[0], right[0]):
                return False
        elif left[0] != right[0]:
            return False
    return True


def is_within(inner, outer):
    return inner.method == outer.method and outer.pieces.items() <= inner.pieces.items() and are_within(inner.segments, outer.segments)


def beats(one, other):
    return is_within(one, other) and not is_within(other, one)


def conflict(one, other):
    common = set(one.pieces) & set(other.pieces)
    both = one.method == other.method and all(one.pieces[it] == other.pieces[it] for it in common) and meet(one.segments, other.segments)
    return both and not beats(one, other) and not beats(other, one)


def found(job):
    """The operation that the request of a job of `route` is of, and "", or None and the line that is told."""
    shapes, routes = job.get("model", {}).get("shapes") if job["operations"] else {}, []
    for name in job["operations"]:
        route = route_of(http_of(shapes, name))
        if route is None:
            return None, f"Template: {name} has no routable template\n"
        other = next((it for it, earlier in routes if conflict(route, earlier)), None)
        if other is not None:
            return None, f"Conflict: {name} conflicts with {other}\n"
        routes.append((name, route))
    asked = Route(job["request"]["method"], *parts(job["request"]["target"]))
    matching = [it for it in routes if job["request"]["target"].startswith("/") and is_within(asked, it[1])]
    best = [name for name, route in matching if all(route is it or beats(route, it) for _, it in matching)]
    return (best[0], "") if best else (None, "NoRoute: no operation has this request\n")
