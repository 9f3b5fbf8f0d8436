"""Runs the built program where no proof looks: at its words, its standard input and output, and its exit status.

    python3 scripts/edge.py [PROGRAM]

Without PROGRAM it is the program of this repository, which ./smithy_bind --build makes first where it is older than its
sources. Each case that doesn't end as docs/JOBS.md says has a line, and the last line is `N passed, M failed`.
"""

import collections
import contextlib
import copy
import fcntl
import json
import os
import pathlib
import re
import resource
import signal
import subprocess
import sys
import tempfile
import termios
import threading
import time

ROOT = pathlib.Path(__file__).resolve().parent.parent
sys.dont_write_bytecode = True
sys.path.append(str(ROOT / "examples"))
from rows import examples  # noqa: E402

MOST_READ = 16_777_216
SECONDS = 120
SET_PIPE_SIZE = 1031  # fcntl(2), F_SETPIPE_SZ of Linux

# A run, and how it is to end: the words, what standard input and output are, the status, and what is written (None: that is not
# looked at). `read` is how many bytes of a file it may have read, and `first` what its process does before it is the program.
Case = collections.namedtuple("Case", "name words given taken status text read first", defaults=(None, lambda: None))


# Standard input: `open` gives what the process reads from, and `use` runs beside it.


class File:
    """A file of these bytes."""

    def __init__(self, data):
        self.data = data

    def open(self, files):
        file = files.enter_context(tempfile.TemporaryFile())
        file.write(self.data)
        file.seek(0)
        return file

    def use(self, process):
        pass


class Path(File):
    """What stands under a path."""

    def open(self, files):
        number = os.open(self.data, os.O_RDONLY)
        files.callback(os.close, number)
        return number


class Pieces:
    """A pipe into which each piece of the bytes is written when the one before it has been read."""

    def __init__(self, data, piece):
        self.data, self.piece = data, piece

    def open(self, files):
        return subprocess.PIPE

    def use(self, process):
        with contextlib.suppress(BrokenPipeError), process.stdin as pipe:
            for at in range(0, len(self.data), self.piece):
                pipe.write(self.data[at : at + self.piece])
                while waiting(pipe) and process.poll() is None:
                    time.sleep(0)


class Stalled:
    """A pipe that has these bytes and no end: to read on fails, since it may not wait."""

    def __init__(self, data):
        self.data = data

    def open(self, files):
        end, start = (files.enter_context(os.fdopen(it, mode, buffering=0)) for it, mode in zip(os.pipe(), ("rb", "wb")))
        os.set_blocking(end.fileno(), False)
        start.write(self.data)
        return end

    def use(self, process):
        pass


# Standard output: `open` gives what the process writes to, and `all` what it has written there when it has ended.


class Pipe:
    """A pipe that is read to its end."""

    def open(self, files):
        return subprocess.PIPE

    def all(self, process):
        return process.stdout.read()


class StoppedPipe:
    """A pipe of 4,096 bytes. The process is stopped while it waits for room in it, so that this write takes a part of its piece."""

    def open(self, files):
        end, start = os.pipe()
        fcntl.fcntl(start, SET_PIPE_SIZE, 4096)
        self.end = files.enter_context(os.fdopen(end, "rb"))
        return files.enter_context(os.fdopen(start, "wb"))

    def all(self, process):
        while waiting(self.end) < 4096 and process.poll() is None:
            time.sleep(0.001)
        for number in (signal.SIGSTOP, signal.SIGCONT):
            time.sleep(0.1)
            process.send_signal(number)
        return self.end.read()


class UnreadPipe:
    """A pipe of 4,096 bytes that nobody reads and that may not wait."""

    def open(self, files):
        end, start = os.pipe()
        fcntl.fcntl(start, SET_PIPE_SIZE, 4096)
        os.set_blocking(start, False)
        self.end = files.enter_context(os.fdopen(end, "rb"))
        return files.enter_context(os.fdopen(start, "wb"))

    def all(self, process):
        process.wait()
        return self.end.read(waiting(self.end))


class ClosedPipe:
    """A pipe whose reader is gone."""

    def open(self, files):
        end, start = os.pipe()
        os.close(end)
        return files.enter_context(os.fdopen(start, "wb"))

    def all(self, process):
        process.wait()
        return b""


class Device:
    """A device, as /dev/full, or a file that takes what a limit of the process leaves."""

    def __init__(self, path=None):
        self.path = path

    def open(self, files):
        self.file = files.enter_context(open(self.path, "wb") if self.path else tempfile.TemporaryFile())
        return self.file

    def all(self, process):
        process.wait()
        if self.path:
            return b""
        self.file.seek(0)
        return self.file.read()


def waiting(pipe):
    """How many bytes in a pipe have not been read."""
    return int.from_bytes(fcntl.ioctl(pipe, termios.FIONREAD, bytes(4)), sys.byteorder)


# What a process does before it is the program.


def ignore(number):
    return lambda: signal.signal(number, signal.SIG_IGN)


def close(number):
    return lambda: os.close(number)


def limit(kind, most):
    def first():
        signal.signal(signal.SIGXFSZ, signal.SIG_IGN)
        resource.setrlimit(kind, (most, most))

    return first


# Jobs, and the texts that docs/JOBS.md asks for.

GET = json.dumps({
    "model": {"shapes": {
        "ex#Get": {"type": "operation", "input": {"target": "ex#GetIn"}, "output": {"target": "ex#GetOut"},
                   "traits": {"smithy.api#http": {"method": "GET", "uri": "/{Bucket}", "code": 200}}},
        "ex#GetIn": {"type": "structure", "members": {
            "Bucket": {"target": "smithy.api#String", "traits": {"smithy.api#httpLabel": {}}}}},
        "ex#GetOut": {"type": "structure", "members": {"Name": {"target": "smithy.api#String"}}}}},
    "operation": "ex#Get",
    "operations": ["ex#Get"],
    "input": {"Bucket": "b"},
    "response": {"status": 200, "body": "{\"Name\":\"a\"}"},
    "request": {"method": "GET", "target": "/b"},
    "to": "rpc",
}).encode()  # fmt: skip
GOTTEN = b"GET /b\n\n"
CALL = b'POST /\ncontent-type: application/json\ncontent-length: 14\n\n{"Bucket":"b"}'
CALLED = json.dumps({**json.loads(GET), "request": {"method": "POST", "target": "/", "body": '{"Bucket":"b"}'}, "to": "rest"}).encode()
WITHOUT_BUCKET = GET.replace(b'"Bucket": "b"', b'"Bucket": ""')
NO_BUCKET = b"InvalidInput: invalid input: Bucket was missing: cannot be empty or unset\n"
WITHOUT_BODY = GET.replace(b'{\\"Name\\":\\"a\\"}', b"")
NO_JSON = b"InvalidInput: invalid input: body is not JSON\n"
BY_AWS = ("aws request", "aws response")
BY_REST_JSON1 = GET[:-1] + b', "protocol": "aws.protocols#restJson1"}'
NO_TARGET = b"Custom: invalid endpoint URI: not a legal request target\n"
WITHOUT_LABEL = GET.replace(b'"target": "/b"', b'"target": "/"')
NO_INPUT = b"NotPlaced: no typed input has this request\n"
NO_ROUTE = b"NoRoute: no operation has this request\n"


def numbers(length):
    """A text of so many bytes in which no piece is like another."""
    return "".join(f"{it:07} " for it in range(length // 8 + 1))[:length]


def posted(length):
    """A job of `rpc` whose text has so many bytes, and its request."""
    text = numbers(length)
    body = json.dumps({"Bucket": text}, separators=(",", ":"))
    request = f"POST /\ncontent-type: application/json\ncontent-length: {len(body)}\n\n{body}"
    return GET.replace(b'"Bucket": "b"', f'"Bucket": "{text}"'.encode()), request.encode()


def generated(count):
    """The four lines of `generate`."""
    body = '{"items":[' + ",".join(str((it * it + count) % 1000) for it in range(count)) + "]}"
    return f"target /g/{count}\nheaders 3\nbody {len(body)}\nsum {sum(body.encode())}\n".encode()


def said_by_script(word):
    """What ./smithy_bind writes for a word that it answers itself, from the program's source."""
    return subprocess.run([ROOT / "smithy_bind", word], check=True, stdout=subprocess.PIPE).stdout


# The cases.


def words():
    """Words that are no command, and commands that read nothing: nothing of standard input is read."""
    given = File(GET)
    for them in (
        [], [""], ["post"], ["Request"], ["request "], ["request", "request"], ["--help", "--help"], ["--"], ["-h"],
        ["generate"], ["generate", ""], ["generate", "100001"], ["generate", "0000003"], ["generate", "-1"],
        ["generate", "+3"], ["generate", "3.0"], ["generate", "3", "3"], ["generate", "٣"],
        ["explain"], ["explain", ""], ["explain", "explain"], ["explain", "generate"], ["explain", "request", "rpc"],
        ["explain", "aws"], ["aws request"], ["aws"], ["aws", ""], ["aws", "rpc"], ["aws", "request", "request"], ["aws", "\udcff"],
        ["\udcff"], ["request\udcff"], ["request", "\udcff"], ["\udcff", "request"], ["generate", "3\udcc3"],
    ):  # fmt: skip
        yield Case(f"the words {them}", them, given, Pipe(), 1, b"", 0)
    for count in (0, 3, 8, 9, 100_000):
        yield Case(f"generate {count}", ["generate", str(count)], given, Pipe(), 0, generated(count), 0)
    yield Case("generate 000003", ["generate", "000003"], given, Pipe(), 0, generated(3), 0)
    for word in ("--help", "--version"):
        yield Case(word, [word], given, Pipe(), 0, said_by_script(word), 0)


def inputs():
    """Each status that the bytes decide, by a file and by pipes."""
    job, request = posted(40_000)
    ends = [(it.name, it.command, it.job, it.status, it.text) for it in examples()] + [
        ("a request", "request", GET, 0, GOTTEN),
        ("a response", "response", GET, 0, b'{"Name":"a"}\n'),
        ("no bytes", "request", b"", 2, b""),
        ("a job without its end", "request", GET[:-1], 2, b""),
        ("a job and a word", "rpc", GET + b"x", 2, b""),
        ("no label", "request", WITHOUT_BUCKET, 3, NO_BUCKET),
        ("no body", "response", WITHOUT_BODY, 3, NO_JSON),
        ("no target", "rpc", GET[:-1] + b', "endpoint": "x"}', 3, NO_TARGET),
        ("a request that is read back", "recover", GET, 0, b'{"Bucket":"b"}\n'),
        ("a request of no input", "recover", WITHOUT_LABEL, 3, NO_INPUT),
        ("a request whose operation is found", "route", GET, 0, b'ex#Get\n{"Bucket":"b"}\n'),
        ("a request of no operation", "route", WITHOUT_LABEL, 3, NO_ROUTE),
        ("a request that is sent on", "gateway", GET, 0, CALL),
        ("a call that is sent on", "gateway", CALLED, 0, GOTTEN),
        ("a request of no input, sent on", "gateway", WITHOUT_LABEL, 3, NO_INPUT),
        ("a request by no protocol of AWS", "aws request", GET, 0, GOTTEN),
        ("a request by restJson1", "aws request", BY_REST_JSON1, 0, GOTTEN),
        ("a request by another protocol", "aws request", GET[:-1] + b', "protocol": "aws.protocols#restXml"}', 2, b""),
        ("a response by no protocol of AWS", "aws response", GET, 0, b'{"Name":"a"}\n'),
        ("a response by restJson1", "aws response", BY_REST_JSON1, 0, b'{"Name":"a"}\n'),
        ("a text of 40,000 bytes", "rpc", job, 0, request),
        ("a job that is explained", "explain request", GET, 0, b"Job\n"),
        ("no bytes, explained", "explain route", b"", 0, b"NotJson: byte 0\n"),
        ("a job without its end, explained", "explain answer", GET[:-1], 0, b"NotJson: byte %d\n" % (len(GET) - 1)),
        ("a job and a word, explained", "explain rpc", GET + b"x", 0, b"NotJson: byte %d\n" % len(GET)),
    ]
    for name, command, data, status, text in ends:
        yield Case(f"{name}, by a file", command.split(), File(data), Pipe(), status, text, len(data))
        for piece in (1, 4095, 4096, 4097):
            yield Case(f"{name}, in pieces of {piece}", command.split(), Pieces(data, piece), Pipe(), status, text)


def mistakes():
    """Jobs with one mistake each, as docs/JOBS.md lists them: each is no job, by `rpc` too."""
    put = GET.replace
    for name, job in (
        ("a byte order mark", b"\xef\xbb\xbf" + GET),
        ("a comma at its end", GET[:-1] + b",}"),
        ("a comment", GET + b" // a job"),
        ("single quotes", put(b'"', b"'")),
        ("another key for the input", put(b'"input": {"Bucket"', b'"inputs": {"Bucket"')),
        ("no operation", put(b'"operation": "ex#Get"', b'"Operation": "ex#Get"')),
        ("an operation without its namespace", put(b'"operation": "ex#Get"', b'"operation": "Get"')),
        ("an operation that is not in the model", put(b'"operation": "ex#Get"', b'"operation": "ex#Put"')),
        ("a target that is not in the model", put(b'"Bucket": {"target": "smithy.api#String"', b'"Bucket": {"target": "ex#Text"')),
        ("a member without a target", put(b'"Bucket": {"target": "smithy.api#String", ', b'"Bucket": {')),
        ("a type that is none", put(b'"ex#GetIn": {"type": "structure"', b'"ex#GetIn": {"type": "struct"')),
        ("mixins", put(b'"ex#GetIn": {', b'"ex#GetIn": {"mixins": [{"target": "ex#GetOut"}], ')),
        ("traits in an array", put(b'{"smithy.api#httpLabel": {}}', b'["smithy.api#httpLabel"]')),
        ("a trait without its namespace", put(b'"smithy.api#httpLabel"', b'"httpLabel"')),
        ("a trait of another form", put(b'{"smithy.api#httpLabel": {}}', b'{"smithy.api#httpLabel": {}, "smithy.api#mediaType": {}}')),
        ("no method", put(b'"method": "GET", "uri"', b'"uri"')),
        ("an optional key that is null", put(b'"operations":', b'"endpoint": null, "operations":')),
        ("a float in the input", put(b'"Bucket": "b"', b'"Bucket": 3.0')),
    ):  # fmt: skip
        for command in ("request", "rpc"):
            yield Case(f"{command} of a job with {name}", [command], File(job), Pipe(), 2, b"")


def unchecked():
    """The rules of a checked schema in docs/JOBS.md, each with what breaks it. The job is one, as `rpc` shows, which asks for no rule."""
    page = (ROOT / "docs" / "JOBS.md").read_text().split("\n## A checked schema\n")[1].split("\n## ")[0]
    job = json.loads(re.search(r"```json\n(.*?)```", page, re.S)[1])
    job.update(operations=["ex#Put"], request={"method": "PUT", "target": "/a/b"}, to="rpc")
    job.update(response={"status": 200, "body": "{}"}, output={})
    asked_of_input, asked_of_output = ("request", "recover", "route", "gateway"), ("response", "answer")
    for command in (*asked_of_input, *asked_of_output, "rpc"):
        yield Case(f"{command} by a checked schema", [command], File(json.dumps(job).encode()), Pipe(), 0, None)
    for number, parts in re.findall(r"^(\d+)\. .* `(\".*)`$", page, re.M):
        parts = json.loads(f"{{{parts}}}")
        yield from broken(f"rule {number}", "ex#PutIn", parts, job, asked_of_input if int(number) < 27 else ())
        if int(number) not in (2, 4, 5, 9, 14, 19, *range(20, 27)):
            yield from broken(f"rule {number}", "ex#PutOut", parts, job, asked_of_output)


def broken(rule, shape, parts, job, commands):
    """The commands by a job whose shape these parts make break a rule."""
    job = copy.deepcopy(job)
    shapes = job["model"]["shapes"]
    for key, value in parts.items():
        others = {"type": shapes[shape], "smithy.api#http": shapes["ex#Put"]["traits"]}
        others.get(key, shapes[shape]["members"])[key] = value
    yield Case(f"{rule} of {shape} by rpc", ["rpc"], File(json.dumps(job).encode()), Pipe(), 0, None)
    for command in commands:
        yield Case(f"{rule} of {shape} by {command}", [command], File(json.dumps(job).encode()), Pipe(), 2, b"")


def lengths():
    """Texts at the limits of buffers, and inputs at the limit of their length."""
    for length in (4095, 4096, 4097, 8191, 8192, 8193, 65_536, 1_000_000):
        job, request = posted(length)
        yield Case(f"a text of {length:,} bytes", ["rpc"], File(job), Pipe(), 0, request)
    blanks, padded = b" " * MOST_READ, GET.ljust(MOST_READ)
    for name, data, status, text in (
        ("16,777,216 blanks", blanks, 2, b""),
        ("a job of 16,777,216 bytes", padded, 0, GOTTEN),
        ("a job behind blanks, of 16,777,216 bytes", GET.rjust(MOST_READ), 0, GOTTEN),
        ("16,777,217 blanks", blanks + b" ", 7, b""),
        ("a job of 16,777,217 bytes", padded + b" ", 7, b""),
        ("a job of 20,000,000 bytes", GET.ljust(20_000_000), 7, b""),
    ):
        line = b"Job\n" if text else b"NotJson: byte %d\n" % len(data)
        explained = (7, b"") if status == 7 else (0, line)
        yield Case(f"{name}, explained", ["explain", "request"], File(data), Pipe(), *explained, MOST_READ + 1)
        yield Case(f"{name}, by a file", ["request"], File(data), Pipe(), status, text, MOST_READ + 1)
        yield Case(f"{name}, by a pipe", ["request"], Pieces(data, 65_536), Pipe(), status, text)
    yield Case("bytes without an end", ["request"], Path("/dev/zero"), Pipe(), 7, b"")


def failed_reads():
    """Standard input that can't be read, or not to its end."""
    for command in ("request", "requests", "response", "responses", "rpc", "recover", "route", "gateway", "answer", "explain request", *BY_AWS):
        yield Case(f"{command} of a folder", command.split(), Path("/"), Pipe(), 4, b"")
        yield Case(f"{command} without standard input", command.split(), File(GET), Pipe(), 4, b"", None, close(0))
        for data in (b"", GET[:9], GET):
            yield Case(f"{command} that stalls behind {len(data)} bytes", command.split(), Stalled(data), Pipe(), 4, b"")
    yield Case("generate 3 beside a folder", ["generate", "3"], Path("/"), Pipe(), 0, generated(3))


def failed_writes():
    """Standard output that takes nothing, or a part. Where nothing is to be written, it doesn't matter."""
    job, request = posted(40_000)
    for name, them, data in (
        ("a request", ["request"], GET),
        ("a fault", ["request"], WITHOUT_BUCKET),
        ("a response", ["response"], GET),
        ("an input", ["recover"], GET),
        ("an operation and an input", ["route"], GET),
        ("a request that is sent on", ["gateway"], GET),
        ("a request by restJson1", ["aws", "request"], BY_REST_JSON1),
        ("a response by restJson1", ["aws", "response"], BY_REST_JSON1),
        ("the line of a job", ["explain", "request"], GET),
        ("a text of 40,000 bytes", ["rpc"], job),
        ("generate 3", ["generate", "3"], b""),
        ("--help", ["--help"], b""),
        ("--version", ["--version"], b""),
    ):
        yield Case(f"{name} to a full device", them, File(data), Device("/dev/full"), 5, None)
        yield Case(f"{name} to a closed pipe", them, File(data), ClosedPipe(), 5, None)
        yield Case(f"{name} to a closed pipe, without its signal", them, File(data), ClosedPipe(), 5, None, None, ignore(signal.SIGPIPE))
        yield Case(f"{name} without standard output", them, File(data), Pipe(), 5, b"", None, close(1))
    for name, them, data, status in (("no job", ["request"], b"", 2), ("no command", ["post"], b"", 1)):
        yield Case(f"{name} to a full device", them, File(data), Device("/dev/full"), status, None)
        yield Case(f"{name} to a closed pipe", them, File(data), ClosedPipe(), status, None)
    yield Case("a pipe that isn't read", ["rpc"], File(job), UnreadPipe(), 5, request[:4096])
    for most in (1, 4096, 5000, len(request) - 1):
        first = limit(resource.RLIMIT_FSIZE, most)
        yield Case(f"a file that takes {most:,} bytes", ["rpc"], File(job), Device(), 5, request[:most], None, first)
    yield Case("a file that takes all", ["rpc"], File(job), Device(), 0, request, None, limit(resource.RLIMIT_FSIZE, len(request)))
    for length in (5000, 40_000, 1_000_000):
        job, request = posted(length)
        yield Case(f"a text of {length:,} bytes, taken in parts", ["rpc"], File(job), StoppedPipe(), 0, request)


def without_memory():
    """An input for which there is not enough memory."""
    for command in ("request", "requests", "response", "responses", "rpc", "recover", "route", "gateway", "answer", "explain request", *BY_AWS):
        first = limit(resource.RLIMIT_AS, MOST_READ)
        yield Case(f"{command} without memory", command.split(), File(GET.ljust(MOST_READ)), Pipe(), 6, b"", None, first)


# How a case ends.


def ended(program, case):
    """The status of the run, what it wrote, what it complained of, and how many bytes of a file it read."""
    with contextlib.ExitStack() as files:
        given, taken, said = case.given.open(files), case.taken.open(files), files.enter_context(tempfile.TemporaryFile())
        words = [os.fsencode(it) for it in (program, *case.words)]
        with subprocess.Popen(words, bufsize=0, stdin=given, stdout=taken, stderr=said, preexec_fn=case.first) as process:
            if taken is not subprocess.PIPE and not isinstance(case.taken, Device):
                taken.close()
            timer = threading.Timer(SECONDS, process.kill)
            feeder = threading.Thread(target=case.given.use, args=(process,))
            timer.start()
            feeder.start()
            text = case.taken.all(process)
            process.wait()
            feeder.join()
            timer.cancel()
        said.seek(0)
        read = os.lseek(given.fileno(), 0, os.SEEK_CUR) if case.read is not None else 0
        return process.returncode, text, said.read(), read


def differs(program, case):
    """How the end of a case differs from what it is to be, or None."""
    status, text, said, read = ended(program, case)
    if status != case.status:
        return f"ends with {status} and not with {case.status}"
    if case.text is not None and text != case.text:
        return f"writes {text[:300]!r} ({len(text):,} bytes) and not {case.text[:300]!r} ({len(case.text):,} bytes)"
    if said:
        return f"complains: {said[:300]!r}"
    if case.read is not None and read > case.read:
        return f"reads {read:,} bytes and not at most {case.read:,}"
    return None


def main(program=None):
    if program is None:
        subprocess.run([ROOT / "smithy_bind", "--build"], check=True)
        program = ROOT / "crates" / "smithy_bind_program" / "out" / "smithy_bind_program"
    passed = failed = 0
    for group in (words, inputs, mistakes, unchecked, lengths, failed_reads, failed_writes, without_memory):
        for case in group():
            how = differs(program, case)
            if how is None:
                passed += 1
            else:
                failed += 1
                print(f"{case.name}: {how}", flush=True)
    print(f"{passed} passed, {failed} failed")
    return 1 if failed else 0


if __name__ == "__main__":
    sys.exit(main(*sys.argv[1:]))
