"""Jobs that are made to cost much, each by its size: those of bench/attacks.py."""

import collections
import json

PRELUDE = "smithy.api#"
STRING, INTEGER = ({"target": PRELUDE + it} for it in ("String", "Integer"))

# A job in two sizes: what it is, its command, and its making from a size.
Attack = collections.namedtuple("Attack", "name command job sizes")


# Models.


def member(target, **traits):
    return {"target": target, "traits": {PRELUDE + name: value for name, value in traits.items()}}


def structure(members):
    return {"type": "structure", "members": members}


def operation(uri="/p", method="POST", **ends):
    found = {"type": "operation", "traits": {PRELUDE + "http": {"method": method, "uri": uri}}}
    return {**found, **{name: {"target": target} for name, target in ends.items()}}


def job(shapes, **keys):
    return text({"model": {"shapes": shapes}, "operation": "a#Op", **keys})


def text(value):
    return json.dumps(value, separators=(",", ":"))


def sent(members, given, uri="/p", **shapes):
    return job({"a#Op": operation(uri, input="a#In"), "a#In": structure(members), **shapes}, input=given)


def numbered(count, name="k{:07}"):
    return [name.format(it) for it in range(count)]


# Keys and names.


def map_keys(count, keys):
    tags = {"type": "map", "key": STRING, "value": STRING}
    return sent({"m": {"target": "a#Map"}}, {"m": {it: "v" for it in keys(count)}}, **{"a#Map": tags})


def ascending(count):
    return numbered(count)


def descending(count):
    return numbered(count)[::-1]


def alike(count):
    """Keys that differ in their last bytes alone."""
    return numbered(count, "x" * 120 + "{:07}")


def colliding(count):
    """Keys with the same sum and the same product of all their bytes: one and the same letters in other orders."""
    found, word = [], "abcdefghij"
    for it in range(count):
        left, made = list(word), ""
        for base in range(len(word), 0, -1):
            made += left.pop(it % base)
            it //= base
        found.append(made)
    return found


def unknown_keys(count):
    body = ",".join(f'"{it}":0' for it in alike(count))
    return sent({"a": STRING}, {"a": "x"})[:-1] + "," + body + "}"


def equal_keys(count):
    body = ",".join('"m":{"k":"v"}' for _ in range(count))
    return sent({"m": {"target": "a#Map"}}, {}, **{"a#Map": {"type": "map", "key": STRING, "value": STRING}})[:-3] + "{" + body + "}}"


def equal_pairs(count):
    given = [["h", it] for it in range(count)] + [["b", it] for it in range(count)]
    return sent({"h": member(PRELUDE + "Integer", httpHeader="X-H"), "b": INTEGER}, given)


def equal_headers(count):
    out = structure({"h": member("a#Texts", httpHeader="X-H")})
    shapes = {"a#Op": operation(output="a#Out"), "a#Out": out, "a#Texts": {"type": "list", "member": STRING}}
    return job(shapes, response={"status": 200, "headers": [["X-H", "v"]] * count})


def equal_pieces(count):
    members = {"q": member("a#Texts", httpQuery="q")}
    asked = {"method": "POST", "target": "/p?" + "&".join(["q=v"] * min(count, 16_000))}
    shapes = {"a#Op": operation(input="a#In"), "a#In": structure(members), "a#Texts": {"type": "list", "member": STRING}}
    return job(shapes, request=asked)


def equal_routes(count):
    """Routes of one shape that differ in one literal, the last of each."""
    shapes = {f"a#Op{it}": operation(f"/{{a}}/{{b}}/{it}", "GET", input="a#In") for it in range(count)}
    shapes["a#In"] = structure({it: member(PRELUDE + "String", httpLabel={}) for it in "ab"})
    return job(shapes, operations=[it for it in shapes if it != "a#In"], request={"method": "GET", "target": "/x/y/0"})


def holes_beside_literals(count):
    """Routes that begin with a literal, and as many that begin with a hole, of which none meets another."""
    pairs = [(f"/{it}/a{it}", "/{a}/" + f"b{it}") for it in range(count // 2)]
    shapes = {}
    for it, (literal, hole) in enumerate(pairs):
        shapes[f"a#Literal{it}"] = operation(literal, "GET", input="a#None")
        shapes[f"a#Hole{it}"] = operation(hole, "GET", input="a#In")
    names = list(shapes)
    shapes["a#None"] = structure({})
    shapes["a#In"] = structure({"a": member(PRELUDE + "String", httpLabel={})})
    return job(shapes, operations=names, request={"method": "GET", "target": "/x/b0"})


def many_routes(count):
    """Routes of methods of their own."""
    shapes = {f"a#Op{it}": operation("/p", f"M{it}", input="a#In") for it in range(count)}
    shapes["a#In"] = structure({})
    return job(shapes, operations=[it for it in shapes if it != "a#In"], request={"method": "M0", "target": "/p"})


# Shapes.


def deep_model(count):
    """A chain of structures, each of which cites itself, the first and the next."""
    shapes = {f"a#S{count}": structure({})}
    for it in range(count):
        cited = {"f": "a#S0", "i": f"a#S{it}", "n": f"a#S{it + 1}"}
        shapes[f"a#S{it}"] = structure({name: {"target": target} for name, target in cited.items()})
    return job({"a#Op": operation(input="a#S0"), **shapes}, input={})


def all_to_all(count):
    """Structures each of which cites each: as many members as bytes."""
    names = [f"a#S{it}" for it in range(count)]
    shapes = {name: structure({f"m{it}": {"target": other} for it, other in enumerate(names)}) for name in names}
    return job({"a#Op": operation(input="a#S0"), **shapes}, input={})


def unreached(count):
    shapes = {it: structure({"a": STRING}) for it in numbered(count, "a#Z{:07}")}
    return sent({"a": STRING}, {"a": "x"}, **shapes)


def many_errors(count):
    names = numbered(count, "a#E{:07}")
    op = {**operation(output="a#Out"), "errors": [{"target": it} for it in names]}
    shapes = {"a#Op": op, "a#Out": structure({}), **{it: structure({"m": STRING}) for it in names}}
    return job(shapes, response={"status": 500, "body": '{"m":"x"}'}, code=names[-1].partition("#")[2])


def equal_errors(count):
    """Errors of one shape name in namespaces of their own, and the same for the service."""
    names = [f"n{it:07}#E" for it in range(count)]
    op = {**operation(output="a#Out"), "errors": [{"target": it} for it in names[::2]]}
    shapes = {"a#Op": op, "a#Out": structure({}), **{it: structure({"m": STRING}) for it in names}}
    return job(shapes, response={"status": 500, "body": '{"m":"x"}'}, code="E", serviceErrors=names[1::2])


def many_traits(count):
    holder = {"target": PRELUDE + "String", "traits": {it: {} for it in numbered(count, "a#t{:07}")}}
    return sent({"a": holder}, {"a": "x"})


# Members.


def body_members(count):
    names = numbered(count, "m{:05}")
    return sent({it: INTEGER for it in names}, {it: 1 for it in names})


def header_members(count):
    names = numbered(count, "m{:05}")
    return sent({it: member(PRELUDE + "Integer", httpHeader=it) for it in names}, {it: 1 for it in names})


def query_members(count):
    names = numbered(count, "m{:05}")
    return sent({it: member(PRELUDE + "Integer", httpQuery=it) for it in names}, {it: 1 for it in names})


def label_members(count):
    names = numbered(count, "m{:05}")
    members = {it: member(PRELUDE + "Integer", httpLabel={}) for it in names}
    return sent(members, {it: 1 for it in names}, "/" + "/".join(f"{{{it}}}" for it in names))


def received_headers(count):
    names = numbered(count, "m{:05}")
    out = structure({it: member(PRELUDE + "Integer", httpHeader=it) for it in names})
    given = {"status": 200, "headers": [[it, "1"] for it in reversed(names)]}
    return job({"a#Op": operation(output="a#Out"), "a#Out": out}, response=given)


def received_prefix(count):
    out = structure({"p": member("a#Map", httpPrefixHeaders="x-")})
    shapes = {"a#Op": operation(output="a#Out"), "a#Out": out, "a#Map": {"type": "map", "key": STRING, "value": STRING}}
    return job(shapes, response={"status": 200, "headers": [["x-" + it, "1"] for it in descending(count)]})


def received_fields(count):
    names = numbered(count, "m{:05}")
    shapes = {"a#Op": operation(output="a#Out"), "a#Out": structure({it: INTEGER for it in names})}
    return job(shapes, response={"status": 200, "body": text({it: 1 for it in reversed(names)})})


def recovered_fields(count, **keys):
    names = numbered(count, "m{:05}")
    asked = posted(text({it: 1 for it in names}))
    return job({"a#Op": operation(input="a#In"), "a#In": structure({it: INTEGER for it in names})}, request=asked, **keys)


def posted(body):
    headers = [["content-type", "application/json"], ["content-length", str(len(body))]]
    return {"method": "POST", "target": "/p", "headers": headers, "body": body}


def sent_on_fields(count):
    return recovered_fields(count, to="rpc")


def taken_fields(count):
    return recovered_fields(count, to="rest")


def taken_headers(count):
    names = numbered(count, "m{:05}")
    given = structure({it: member(PRELUDE + "Integer", httpHeader=it) for it in names})
    return job({"a#Op": operation(input="a#In"), "a#In": given}, request=posted(text({it: 1 for it in names})), to="rest")


def answered(members, given, **shapes):
    return job({"a#Op": operation(output="a#Out"), "a#Out": structure(members), **shapes}, output=given)


def answered_fields(count):
    names = numbered(count, "m{:05}")
    return answered({it: INTEGER for it in names}, {it: 1 for it in names})


def answered_headers(count):
    names = numbered(count, "m{:05}")
    return answered({it: member(PRELUDE + "Integer", httpHeader=it) for it in names}, {it: 1 for it in names})


def answered_prefix(count):
    tags = {"type": "map", "key": STRING, "value": STRING}
    return answered({"p": member("a#Map", httpPrefixHeaders="x-")}, {"p": {it: "v" for it in descending(count)}}, **{"a#Map": tags})


def answered_list(count):
    texts = {"type": "list", "member": STRING}
    return answered({"h": member("a#Texts", httpHeader="X-H")}, {"h": [","] * count}, **{"a#Texts": texts})


# Structures of many members, many times.


def wide(count):
    """A list of empty structures of as many members as elements."""
    wide = structure({it: INTEGER for it in numbered(count, "m{:05}")})
    return {"a#In": structure({"l": {"target": "a#List"}}), "a#List": {"type": "list", "member": {"target": "a#W"}}, "a#W": wide}


def wide_sent(count):
    return job({"a#Op": operation(input="a#In"), **wide(count)}, input={"l": [{}] * count})


def wide_received(count):
    return job({"a#Op": operation(output="a#In"), **wide(count)}, response={"status": 200, "body": text({"l": [{}] * count})})


def wide_received_one(count):
    return job({"a#Op": operation(output="a#In"), **wide(count)}, response={"status": 200, "body": text({"l": [{"m00000": 1}] * count})})


def wide_recovered(count):
    return job({"a#Op": operation(input="a#In"), **wide(count)}, request=posted(text({"l": [{}] * count})))


def wide_routes(count):
    """Operations of one input of as many members."""
    shapes = {f"a#Op{it}": operation(f"/p{it}", "GET", input="a#In") for it in range(count)}
    shapes["a#In"] = structure({it: member(PRELUDE + "Integer", httpQuery=it) for it in numbered(count, "q{:05}")})
    return job(shapes, operations=[it for it in shapes if it != "a#In"], request={"method": "GET", "target": "/p0"})


def wide_route_again(count):
    """One operation of many members, named as many times."""
    given = structure({it: member(PRELUDE + "Integer", httpQuery=it) for it in numbered(count, "q{:05}")})
    shapes = {"a#Op": operation("/p", "GET", input="a#In"), "a#In": given}
    return job(shapes, operations=["a#Op"] * count, request={"method": "GET", "target": "/p"})


# Jobs that are explained: each is none at its end, or by the rule that is asked last.


def wrong_target(count):
    names = numbered(count, "m{:05}")
    return sent({**{it: STRING for it in names}, "z": {"target": "a#Gone"}}, {})


def wrong_pair(count):
    return sent({"b": INTEGER}, [["b", 1]] * count + [["b"]])


def wrong_trait(count):
    traits = {**{it: {} for it in numbered(count, "a#t{:07}")}, PRELUDE + "xmlName": 0}
    return sent({"a": {"target": PRELUDE + "String", "traits": traits}}, {})


def wrong_error(count):
    names = numbered(count, "a#E{:07}")
    op = {**operation(output="a#Out"), "errors": [{"target": it} for it in names]}
    shapes = {"a#Op": op, "a#Out": structure({}), **{it: structure({"m": STRING}) for it in names[:-1]}, names[-1]: {"type": "none"}}
    return job(shapes, response={"status": 500, "body": ""}, code="E")


def wrong_routes(count):
    shapes = {f"a#Op{it}": operation(f"/p{it}", "GET", input="a#In") for it in range(count)}
    shapes["a#In"] = structure({"z": {"target": "a#Gone"}})
    return job(shapes, operations=[it for it in shapes if it != "a#In"], request={"method": "GET", "target": "/p0"})


def equal_query_names(count):
    names = numbered(count, "m{:05}")
    return sent({**{it: member(PRELUDE + "Integer", httpQuery=it) for it in names}, "z": member(PRELUDE + "String", httpQuery=names[0])}, {})


def without_hole(count):
    names = numbered(count, "m{:05}")
    members = {it: member(PRELUDE + "Integer", httpLabel={}) for it in names}
    return sent(members, {}, "/" + "/".join(f"{{{it}}}" for it in names[:-1]))


def unended(count):
    return sent({"d": {"target": PRELUDE + "Document"}}, {"d": [1] * count})[:-1]


# Texts.


def header_commas(count):
    out = structure({"h": member("a#Texts", httpHeader="X-H")})
    shapes = {"a#Op": operation(output="a#Out"), "a#Out": out, "a#Texts": {"type": "list", "member": STRING}}
    return job(shapes, response={"status": 200, "headers": [["X-H", "," * count]]})


def endpoint_holes(count):
    """An endpoint of many holes for one long label."""
    label = structure({"a": member(PRELUDE + "String", httpLabel={})})
    shapes = {"a#Op": {"type": "operation", "input": {"target": "a#In"}}, "a#In": label}
    return job(shapes, endpoint="/" + "{a}" * count, input={"a": "x" * count})


def query_map(count):
    members = {it: member(PRELUDE + "String", httpQuery=it) for it in numbered(count, "q{:05}")}
    members["m"] = member("a#Map", httpQueryParams={})
    given = {"m": {it: "v" for it in numbered(count, "q{:05}")}}
    return sent(members, given, **{"a#Map": {"type": "map", "key": STRING, "value": STRING}})


def escapes(count):
    return sent({"a": STRING}, {}).replace('"input":{}', '"input":{"a":"' + "\\u0001" * count + '"}')


def escaped_label(count):
    return sent({"a": member(PRELUDE + "String", httpLabel={})}, {"a": "/" * count}, "/{a}")


def empty_lists(count):
    return sent({"d": {"target": PRELUDE + "Document"}}, {"d": [[]] * count})


def ones(count):
    return sent({"d": {"target": PRELUDE + "Document"}}, {"d": [1] * count})


def received_lists(count):
    shapes = {"a#Op": operation(output="a#Out"), "a#Out": structure({"d": {"target": PRELUDE + "Document"}})}
    return job(shapes, response={"status": 200, "body": '{"d":[' + ",".join(["[]"] * count) + "]}"})


def blanks(count):
    return sent({"a": STRING}, {"a": "x"}) + " " * count


def open_brackets(count):
    return "[" * count


def deepest(levels=124):
    """A document of as many levels as a job may have, in the input and in a structure that cites itself."""
    given = "[" * levels + "]" * levels
    return sent({"d": {"target": PRELUDE + "Document"}}, {}).replace('"input":{}', '"input":{"d":' + given + "}")


def deepest_structure(levels=124):
    given = '{"n":' * levels + "{}" + "}" * levels
    return sent({"n": {"target": "a#In"}}, {}).replace('"input":{}', '"input":' + given)


def deepest_body(levels=125):
    shapes = {"a#Op": operation(output="a#In"), "a#In": structure({"n": {"target": "a#In"}})}
    return job(shapes, response={"status": 200, "body": '{"n":' * levels + "{}" + "}" * levels})


def deepest_recovered(levels=99, **keys):
    asked = posted('{"n":' * levels + "{}" + "}" * levels)
    return job({"a#Op": operation(input="a#In"), "a#In": structure({"n": {"target": "a#In"}})}, request=asked, **keys)


def deepest_routed():
    return deepest_recovered(operations=["a#Op"])


def deepest_answered(levels=124):
    given = '{"n":' * levels + "{}" + "}" * levels
    return answered({"n": {"target": "a#Out"}}, {}).replace('"output":{}', '"output":' + given)


def deepest_wrong(levels=125):
    return sent({}, {}).replace('"input":{}', '"input":' + "[" * levels + "1.5" + "]" * levels)


TEN = (10_000, 100_000)
ATTACKS = [
    Attack("keys of a map in ascending order", "request", lambda n: map_keys(n, ascending), TEN),
    Attack("keys of a map in descending order", "request", lambda n: map_keys(n, descending), TEN),
    Attack("keys that differ behind 120 bytes", "request", lambda n: map_keys(n, alike), TEN),
    Attack("keys of the same letters", "request", lambda n: map_keys(n, colliding), TEN),
    Attack("keys that a job hasn't", "request", unknown_keys, TEN),
    Attack("a name again and again in the input", "request", equal_keys, TEN),
    Attack("pairs of two names again and again", "request", equal_pairs, TEN),
    Attack("a header again and again", "response", equal_headers, TEN),
    Attack("a query piece again and again", "recover", equal_pieces, (1_600, 16_000)),
    Attack("a structure that cites itself and the next", "request", deep_model, (1_000, 10_000)),
    Attack("structures that cite each other", "request", all_to_all, (100, 300)),
    Attack("shapes that are not reached", "request", unreached, TEN),
    Attack("errors of an operation", "response", many_errors, (1_000, 10_000)),
    Attack("errors of one shape name", "response", equal_errors, (1_000, 10_000)),
    Attack("traits of a member", "request", many_traits, TEN),
    Attack("members in the body", "request", body_members, (6_500, 65_000)),
    Attack("members posted", "rpc", body_members, (6_500, 65_000)),
    Attack("members in headers", "request", header_members, (6_500, 65_000)),
    Attack("members in the query", "request", query_members, (650, 6_500)),
    Attack("members in the path", "request", label_members, (2_000, 20_000)),
    Attack("members that stand in headers, received", "response", received_headers, (6_500, 65_000)),
    Attack("headers behind a prefix, received", "response", received_prefix, (6_500, 65_000)),
    Attack("members in the body, received", "response", received_fields, (6_500, 65_000)),
    Attack("members in the body, read back", "recover", recovered_fields, (6_500, 65_000)),
    Attack("members in the body, sent on to rpc", "gateway", sent_on_fields, (6_500, 65_000)),
    Attack("members in the body, sent on to rest", "gateway", taken_fields, (6_500, 65_000)),
    Attack("members in headers, sent on to rest", "gateway", taken_headers, (6_500, 65_000)),
    Attack("members in the body, answered", "answer", answered_fields, (6_500, 65_000)),
    Attack("members in headers, answered", "answer", answered_headers, (6_500, 65_000)),
    Attack("headers behind a prefix, answered", "answer", answered_prefix, (6_500, 65_000)),
    Attack("texts in quotes in a header, answered", "answer", answered_list, TEN),
    Attack("a query map with the names of query members", "request", query_map, TEN),
    Attack("operations that differ in a literal", "route", equal_routes, (300, 3_000)),
    Attack("operations of other methods", "route", many_routes, (300, 3_000)),
    Attack("operations with a hole beside those with a literal", "route", holes_beside_literals, (300, 3_000)),
    Attack("N structures of N members, sent", "request", wide_sent, (1_000, 10_000)),
    Attack("N structures of N members, received", "response", wide_received, (1_000, 10_000)),
    Attack("N structures of N members, one of each received", "response", wide_received_one, (1_000, 10_000)),
    Attack("N structures of N members, read back", "recover", wide_recovered, (500, 5_000)),
    Attack("N operations of one input of N members", "route", wide_routes, (50, 500)),
    Attack("one operation of N members, N times", "route", wide_route_again, (50, 500)),
    Attack("N holes of an endpoint for a label of N bytes", "request", endpoint_holes, (1_000, 10_000)),
    Attack("members, of which the last has no shape", "explain request", wrong_target, (6_500, 65_000)),
    Attack("pairs, of which the last is none", "explain request", wrong_pair, TEN),
    Attack("traits, of which the last has another form", "explain rpc", wrong_trait, TEN),
    Attack("errors, of which the last has no type", "explain response", wrong_error, (1_000, 10_000)),
    Attack("operations of an input whose member has no shape", "explain route", wrong_routes, (300, 3_000)),
    Attack("N operations of one input of N members, explained", "explain route", wide_routes, (50, 500)),
    Attack("members in the query, of which two are alike", "explain request", equal_query_names, (6_500, 65_000)),
    Attack("members in the path, of which one has no hole", "explain request", without_hole, (2_000, 20_000)),
    Attack("members in the body, explained", "explain gateway", sent_on_fields, (6_500, 65_000)),
    Attack("members in headers, explained", "explain answer", answered_headers, (6_500, 65_000)),
    Attack("numbers without the end of the job", "explain request", unended, (800_000, 8_000_000)),
    Attack("commas in a header, received", "response", header_commas, (50_000, 500_000)),
    Attack("a label that is escaped", "request", escaped_label, (1_000_000, 10_000_000)),
    Attack("escapes of JSON", "request", escapes, (200_000, 2_000_000)),
    Attack("empty lists", "request", empty_lists, (500_000, 5_000_000)),
    Attack("empty lists, received", "response", received_lists, (500_000, 5_000_000)),
    Attack("numbers of one digit", "request", ones, (800_000, 8_000_000)),
    Attack("blanks", "request", blanks, (1_600_000, 16_000_000)),
    Attack("brackets without an end", "request", open_brackets, (1_600_000, 16_000_000)),
]
DEEPEST = [
    Attack("a document of 127 levels", "request", deepest, ()),
    Attack("a document of 127 levels", "rpc", deepest, ()),
    Attack("a structure in itself, 127 levels", "request", deepest_structure, ()),
    Attack("a structure in itself, 127 levels", "rpc", deepest_structure, ()),
    Attack("a structure in itself, 127 levels", "response", deepest_body, ()),
    Attack("a structure in itself, 100 levels", "recover", deepest_recovered, ()),
    Attack("a structure in itself, 100 levels, to rpc", "gateway", lambda: deepest_recovered(to="rpc"), ()),
    Attack("a structure in itself, 100 levels, to rest", "gateway", lambda: deepest_recovered(to="rest"), ()),
    Attack("a structure in itself, 100 levels", "route", deepest_routed, ()),
    Attack("a structure in itself, 127 levels", "answer", deepest_answered, ()),
    Attack("a float below 126 arrays", "explain request", deepest_wrong, ()),
    Attack("a chain of 10,000 structures", "request", lambda: deep_model(10_000), ()),
]
