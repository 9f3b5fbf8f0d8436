"""Refuses each request for memory of runs of the built program in turn, and looks how they end.

    python3 scripts/refused_memory.py [--all] [--program PROGRAM]

Without a PROGRAM it is the program of this repository, which ./smithy_bind --build makes first where it is older than its sources. It
needs `cc`, and a C library that is glibc. The rows are those of CASES, of every command; with
--all they are all of crates/job_rows, and of a run that makes more than 1,000 requests, not each is refused. The gate doesn't run it.

Of each row the k-th request is refused, once this one alone and once it with all behind it, for each k. Such a run has to end with
status 6 and to write nothing, or to end as it does where nothing is refused. Each row of which a run doesn't has a line; the last
line is `N passed, M failed`, over these runs.
"""

import base64
import collections
import concurrent.futures
import json
import os
import pathlib
import subprocess
import sys
import tempfile

SCRIPTS = pathlib.Path(__file__).resolve().parent
ROOT = SCRIPTS.parent
ROWS = ROOT / "crates" / "job_rows"
NO_MEMORY = (6, b"")
LAST = 2**63
# A run of more requests is refused at its first and last ones, and at so many between.
MOST_EACH = 1000
SECONDS = 120

# The rows by the cases of crates/job_rows/stdin.
CASES = {
    "the example get_object",
    "the first sample with an empty label",
    "an unbound member stands in the body",
    "the second sample: a streamed payload, headers, a map behind a prefix",
    "the second sample cut inside a text",
    "every member stands in the body, whatever its bindings",
    "response: a header and a status before their copies in the body",
    "response: a modelled error with an empty body",
    "response: an output with an empty body",
    "the example get_space_error",
    "the example put_object_recovered",
    "the example eks_routed",
    "the example list_objects_to_rpc",
    "the example list_objects_to_rest",
    "the example get_object_answered",
    "explained: the job of gateway",
    "explained: the front of the job of recover",
    "explained: a Float at the top of the job of answer",
    "explain route: an operation without smithy.api#http",
    "explain answer: a code of an operation that is no status",
    "explain: an operation among many that the model has not",
    "explain response: error not listed",
    "words that are no command",
    "the version",
    "generate: no numbers",
    "generate: three numbers",
}

# Words and bytes of a run; how it ended, and how many requests it made.
Row = collections.namedtuple("Row", "name words job")
End = collections.namedtuple("End", "status text requests")


def job_of(row):
    job = row["job"]
    return job.encode() if isinstance(job, str) else base64.b64decode(job["base64"])


def rows(has_all):
    """The rows; it stops where a case of CASES stands in none."""
    with open(ROWS / "stdin", encoding="utf-8") as lines:
        found = [Row(it.get("case", ""), it["words"], job_of(it)) for it in map(json.loads, lines)]
    if missing := CASES - {it.name for it in found}:
        sys.exit(f"no row has the case {', '.join(sorted(missing))}")
    return [it for it in found if has_all or it.name in CASES]


class Refusing:
    """Runs of a program whose requests for memory can be refused."""

    def __init__(self, program, shim):
        self.program, self.shim = program, shim

    def end(self, row, first=0, last=0):
        """The end of a run that is refused its requests from the first to the last."""
        names = {"LD_PRELOAD": self.shim, "REFUSED_FROM": str(first), "REFUSED_TO": str(last)}
        words = [self.program, *row.words]
        done = subprocess.run(words, input=row.job, capture_output=True, env=names, close_fds=False, timeout=SECONDS)
        return End(done.returncode, done.stdout, int(done.stderr or -1))

    def differing(self, row):
        """How many runs of a row are as they have to be, and of the others what was refused and how they ended."""
        whole = self.end(row)
        passed, wrong = 0, []
        for first in places(whole.requests):
            for last in (first, LAST):
                end = self.end(row, first, last)
                if end[:2] in (NO_MEMORY, whole[:2]):
                    passed += 1
                else:
                    wrong.append((first, last, end))
        return whole, passed, wrong


def places(requests):
    """The numbers of the requests that are refused."""
    if requests <= MOST_EACH:
        return range(1, requests + 1)
    third = MOST_EACH // 3
    between = range(third + 1, requests - third, max(1, requests // third))
    return [*range(1, third + 1), *between, *range(requests - third, requests + 1)]


def built():
    subprocess.run([ROOT / "smithy_bind", "--build"], check=True)
    return ROOT / "crates" / "smithy_bind_program" / "out" / "smithy_bind_program"


def main(words):
    program = pathlib.Path(words[words.index("--program") + 1]).resolve() if "--program" in words else built()
    asked, passed, failed = rows("--all" in words), 0, 0
    with tempfile.TemporaryDirectory() as work, concurrent.futures.ThreadPoolExecutor(os.cpu_count()) as pool:
        shim = pathlib.Path(work) / "refused_memory.so"
        subprocess.run(["cc", "-O2", "-shared", "-fPIC", "-o", shim, SCRIPTS / "refused_memory.c"], check=True)
        requests = 0
        for row, (whole, right, wrong) in zip(asked, pool.map(Refusing(program, shim).differing, asked)):
            passed, failed, requests = passed + right, failed + len(wrong), requests + whole.requests
            if "--all" not in words:
                print(f"{' '.join(row.words)}: {row.name}: {whole.requests} requests, status {whole.status}")
            for first, last, end in wrong[:1]:
                more = " and all behind it" if last == LAST else ""
                print(f"{row.name}: with request {first}{more} refused, ends with {end.status} and {end.text[:200]!r}", flush=True)
    print(f"{len(asked)} rows, {requests} requests for memory")
    print(f"{passed} passed, {failed} failed")
    return 1 if failed else 0


if __name__ == "__main__":
    sys.exit(main(sys.argv[1:]))
