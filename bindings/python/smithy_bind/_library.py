"""The commands of the shared object."""

from __future__ import annotations

import ctypes
import json
import os
import pathlib
from typing import Any, Callable, Dict, List, Mapping, Tuple, TypeVar, Union

from smithy_bind._parts import Output, Request, Response, Routed, parsed_requests, parsed_responses
from smithy_bind._refusals import Fault, NoJob, TooLong, UnknownAnswer, refused

# The commands whose jobs are explained: each is the export smithy_bind_NAME of the shared object, and what explains it is
# smithy_bind_explain_NAME.
EXPLAINED = ("request", "requests", "response", "responses", "rpc", "recover", "route", "gateway", "answer")

# Those by the protocol of AWS that a job names: `aws NAME` is the export smithy_aws_NAME.
BY_AWS = ("aws request", "aws response")

# The commands that read a job.
COMMANDS = (*EXPLAINED, *BY_AWS)

# What a job is given as: JSON as a str or as bytes, or what json.dumps writes.
Job = Union[str, bytes, bytearray, memoryview, Mapping[str, Any]]

# What most texts fit into.
FIRST_ROOM = 4096

# The file that is looked for where none is named, and the variable that may name it.
FILE = "libsmithy_bind.so"
VARIABLE = "SMITHY_BIND_LIBRARY"

Part = TypeVar("Part")


class Library:
    """The commands of the shared object at a path. Where none is given, it is the one that SMITHY_BIND_LIBRARY names, and else
    libsmithy_bind.so in this package's folder.

    Calls may run in several threads at a time, and do so side by side: the interpreter's lock is not held in the library.
    """

    def __init__(self, path: str | os.PathLike[str] | None = None) -> None:
        library = ctypes.CDLL(str(_found(path)))
        self._calls = {name: _declared(library[_export(name)]) for name in COMMANDS}
        self._explain = {name: _declared(library[f"smithy_bind_explain_{name}"]) for name in EXPLAINED}

    def answer(self, command: str, job: Job) -> bytes:
        """The text that the program's command writes for a job."""
        data = _bytes(job)
        status, text = self.ended(command, data)
        if status == 2 and command in self._explain:
            text = _output(*_called(self._explain[command], data))
        return _output(status, text)

    def ended(self, command: str, job: Job) -> Tuple[int, bytes]:
        """The exit status and the text that the program's command has for a job. Nothing is raised for a status."""
        return _called(self._calls[command], _bytes(job))

    def explain(self, command: str, job: Job) -> str:
        """One line that says of a job why it is none of the command, without its end: `NotJson: byte N`, where the bytes are no JSON
        from there on; `NoJob: POINTER: what is asked there`, by a JSON Pointer (RFC 6901); or `NotChecked:` and the rule that its
        schema breaks. It is `Job` where the job is one. KeyError of a command whose jobs nothing explains."""
        line = _output(*_called(self._explain[command], _bytes(job))).decode()
        return line[:-1]

    def request(self, job: Job) -> Request:
        """The HTTP request of a job's input."""
        return self._parted("request", job, Request.parse)

    def requests(self, job: Job) -> List[Union[Request, Fault, NoJob]]:
        """For each of a job's inputs, in order, its HTTP request, or why it has none. A refusal stands in the list and isn't raised."""
        return self._parted("requests", job, parsed_requests)

    def response(self, job: Job) -> Output:
        """The value that a job's response hands out."""
        return self._parted("response", job, Output.parse)

    def responses(self, job: Job) -> List[Union[Output, Fault, NoJob]]:
        """For each of a job's responses, in order, the value that it hands out, or why it has none. A refusal stands in the list and
        isn't raised."""
        return self._parted("responses", job, parsed_responses)

    def rpc(self, job: Job) -> Request:
        """The POST of a job's input as one JSON body, of content type application/json, without X-Amz-Target."""
        return self._parted("rpc", job, Request.parse)

    def recover(self, job: Job) -> Dict[str, Any]:
        """The input that a job's request is of."""
        return self._parted("recover", job, Output.parse).value

    def route(self, job: Job) -> Routed:
        """The operation that a job's request is of, and its input."""
        return self._parted("route", job, Routed.parse)

    def gateway(self, job: Job) -> Request:
        """The POST of the input that a job's request is of, or the request of the input that it posts."""
        return self._parted("gateway", job, Request.parse)

    def serve(self, job: Job) -> Response:
        """The HTTP response of a job's output: what the command `answer` writes."""
        return self._parted("answer", job, Response.parse)

    def aws_request(self, job: Job) -> Request:
        """The HTTP request of a job's input by the protocol of AWS that the job names, or what `request` gives where it names none."""
        return self._parted("aws request", job, Request.parse)

    def aws_response(self, job: Job) -> Output:
        """The value that a job's response hands out by the protocol of AWS that the job names, or what `response` gives where it names
        none. An error that was found by its code, which the response may tell itself, has its name."""
        return self._parted("aws response", job, Output.parse)

    def _parted(self, command: str, job: Job, parse: Callable[[bytes], Part]) -> Part:
        text = self.answer(command, job)
        try:
            return parse(text)
        except ValueError as error:
            raise UnknownAnswer(0, text) from error


def _found(path: str | os.PathLike[str] | None) -> pathlib.Path:
    named = path or os.environ.get(VARIABLE) or pathlib.Path(__file__).parent / FILE
    file = pathlib.Path(named).absolute()
    if not file.is_file():
        raise FileNotFoundError(
            f"{file} is not there: pass the path of {FILE}, or set {VARIABLE} to it. bindings/README.md says how it is made."
        )
    return file


def _export(command: str) -> str:
    return f"smithy_{command.replace(' ', '_')}" if command in BY_AWS else f"smithy_bind_{command}"


def _declared(call: Any) -> Any:
    text, size = ctypes.c_char_p, ctypes.c_size_t
    call.argtypes = [text, size, text, size, ctypes.POINTER(size)]
    call.restype = ctypes.c_uint8
    return call


def _bytes(job: Job) -> bytes:
    if isinstance(job, bytes):
        return job
    if isinstance(job, str):
        return job.encode()
    if isinstance(job, Mapping):
        return json.dumps(dict(job), allow_nan=False, separators=(",", ":")).encode()
    if isinstance(job, (bytearray, memoryview)):
        return bytes(job)
    raise TypeError(f"a job is a str, bytes or a dict, and not a {type(job).__name__}")


def _called(call: Any, job: bytes) -> tuple[int, bytes]:
    """What a call ends with, and its whole text."""
    room = FIRST_ROOM
    while True:
        text = ctypes.create_string_buffer(room)
        length = ctypes.c_size_t()
        status = call(job, len(job), text, room, ctypes.byref(length))
        if length.value <= room:
            return status, ctypes.string_at(text, length.value)
        # The text was not written: there is room for it the next time.
        room = length.value


def _output(status: int, text: bytes) -> bytes:
    if status == 0:
        return text
    if status == 6:
        raise MemoryError
    if status == TooLong.status:
        raise TooLong
    raise refused(status, text)
