"""Why a command gives no output."""


class Refusal(Exception):
    """Why there is no output. `status` is the exit status that the program has for it."""

    status: int


class _Told(Refusal):
    """A refusal with a line, bytes with its end, that says why. `kind` is what stands before its first `: `, and `text` what stands
    behind."""

    def __init__(self, line: bytes) -> None:
        told = line.decode(errors="replace").rstrip("\n")
        super().__init__(told)
        self.line = line
        self.kind, _, self.text = told.partition(": ")

    def __reduce__(self) -> "tuple[type[_Told], tuple[bytes]]":
        return type(self), (self.line,)


class NoJob(_Told):
    """The bytes are no job, or its schema can't be worked by: `line`, that of `explain`, says why. It is empty where nothing says it."""

    status = 2

    def __init__(self, line: bytes = b"") -> None:
        super().__init__(line)

    def __str__(self) -> str:
        told = super().__str__()
        return told or "no job, or one whose schema is not checked: docs/JOBS.md of smithy_bind has the form of a job"


class Fault(_Told):
    """The input can't be sent, the response can't be read, the output can't be written, no input has the request, or no operation is
    found: `line` says why."""

    status = 3


class TooLong(Refusal):
    """The job has more than 16,777,216 bytes."""

    status = 7

    def __init__(self) -> None:
        super().__init__("the job has more than 16777216 bytes")


class UnknownAnswer(Refusal):
    """What no command of this version ends with: the library is another version's. `status` and `text` are what it gave."""

    def __init__(self, status: int, text: bytes) -> None:
        super().__init__(f"an answer of another version of smithy_bind, of status {status}")
        self.status = status
        self.text = text

    def __reduce__(self) -> "tuple[type[UnknownAnswer], tuple[int, bytes]]":
        return type(self), (self.status, self.text)


def refused(status: int, text: bytes) -> Refusal:
    """The refusal of a status that has one, with its text."""
    for kind in (NoJob, Fault):
        if status == kind.status:
            return kind(text)
    return UnknownAnswer(status, text)
