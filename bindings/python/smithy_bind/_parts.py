"""The parts of what a command writes."""

from __future__ import annotations

import base64
import dataclasses
import json
from typing import Any, Callable, List, Tuple, TypeVar, Union

from smithy_bind._refusals import Fault, NoJob

Part = TypeVar("Part")


@dataclasses.dataclass(frozen=True)
class Request:
    """An HTTP request. A client adds to it what is its own, as `host`, and sends the parts as they stand.

    `target` is a path and a query, or a whole URL where the endpoint of the job is one. `headers` has each name in lower case
    and once, with its value: bytes as ISO 8859-1, in which http.client writes them again. `body` may be empty.
    """

    method: str
    target: str
    headers: Tuple[Tuple[str, str], ...] = ()
    body: bytes = b""

    @classmethod
    def parse(cls, text: bytes) -> Request:
        """The request of the text that `request`, `rpc` and `gateway` write. ValueError where it has not their form."""
        first, rest = _line(text)
        method, target = _halves(first, b" ")
        return cls(method.decode(), target.decode(), *_message(rest))

    def header(self, name: str) -> str | None:
        """The value of the header with this name, in any case. None where there is none."""
        return dict(self.headers).get(name.lower())


def parsed_requests(text: bytes) -> List[Union[Request, Fault, NoJob]]:
    """What the lines of the text that `requests` writes tell. ValueError where it has not their form."""
    return [_parsed_line(it, _request_in) for it in _lines(text)]


def parsed_responses(text: bytes) -> List[Union[Output, Fault, NoJob]]:
    """What the lines of the text that `responses` writes tell. ValueError where it has not their form."""
    return [_parsed_line(it, _output_in) for it in _lines(text)]


def _lines(text: bytes) -> List[Any]:
    *lines, last = text.split(b"\n")
    if last:
        raise ValueError("a line without its end")
    return [json.loads(it) for it in lines]


def _parsed_line(value: Any, done: Callable[[Any], Part]) -> Union[Part, Fault, NoJob]:
    try:
        if value["status"] == Fault.status:
            return Fault(value["fault"].encode() + b"\n")
        if value["status"] == NoJob.status:
            return NoJob()
        return done(value)
    except (AttributeError, KeyError, TypeError) as error:
        raise ValueError(f"{str(value)[:100]} tells no answer") from error


def _request_in(value: Any) -> Request:
    headers = tuple((name, _bytes(it).decode("iso-8859-1")) for name, it in value["headers"])
    return Request(value["method"], value["target"], headers, _bytes(value["body"]))


def _output_in(value: Any) -> Output:
    return Output(value["value"], value.get("error"))


def _bytes(value: Any) -> bytes:
    """The bytes of a text, or of one in base64."""
    return value.encode() if isinstance(value, str) else base64.b64decode(value["base64"], validate=True)


@dataclasses.dataclass(frozen=True)
class Response:
    """An HTTP response. `status` is a number of three digits; `headers` and `body` are as of a request."""

    status: int
    headers: Tuple[Tuple[str, str], ...] = ()
    body: bytes = b""

    @classmethod
    def parse(cls, text: bytes) -> Response:
        """The response of the text that the command `answer` writes. ValueError where it has not its form."""
        first, rest = _line(text)
        if len(first) != 3 or not first.isdigit():
            raise ValueError(f"{first[:100]!r} is no status")
        return cls(int(first), *_message(rest))

    def header(self, name: str) -> str | None:
        """The value of the header with this name, in any case. None where there is none."""
        return dict(self.headers).get(name.lower())


@dataclasses.dataclass(frozen=True)
class Output:
    """The value of a response. `error` is the full name of the error that the response is, of a job with a `code`."""

    value: Any
    error: str | None = None

    @classmethod
    def parse(cls, text: bytes) -> Output:
        """The value of the text that `response` writes. ValueError where it has not its form."""
        if not text.endswith(b"\n"):
            raise ValueError("a line without its end")
        # The value is the last line: a name may have line feeds, and the value's are escaped.
        name, is_named, value = text[:-1].rpartition(b"\n")
        return cls(json.loads(value), name.decode() if is_named else None)


@dataclasses.dataclass(frozen=True)
class Routed:
    """The operation of a request by its full name, and the input that has it."""

    operation: str
    input: Any

    @classmethod
    def parse(cls, text: bytes) -> Routed:
        """The operation and the input of the text that `route` writes. ValueError where it has not its form."""
        output = Output.parse(text)
        if output.error is None:
            raise ValueError("an input without an operation")
        return cls(output.error, output.value)


def _message(text: bytes) -> tuple[Tuple[Tuple[str, str], ...], bytes]:
    """The headers of a message, up to the empty line behind them, and its body."""
    headers = []
    while True:
        first, text = _line(text)
        if not first:
            return tuple(headers), text
        name, value = _halves(first, b": ")
        headers.append((name.decode(), value.decode("iso-8859-1")))


def _line(text: bytes) -> tuple[bytes, bytes]:
    return _halves(text, b"\n")


def _halves(text: bytes, between: bytes) -> tuple[bytes, bytes]:
    first, found, second = text.partition(between)
    if not found:
        raise ValueError(f"{first[:100]!r} has no {between!r} behind it")
    return first, second
