"""Runs damaged jobs by the library, and looks how each run ends.

    python3 scripts/damage.py [--runs N] [--seed TEXT] [--processes N] [--library FOLDER]

N is 1,000,000 runs and as many processes as there are processors, where nothing is said. The library is crates/smithy_bind_c, which
is proved and linked first, unless FOLDER has libsmithy_bind_c.a; it needs `rt` and `cc`. One run is one call in the process, without
a process of its own. The runs are the same ones for the same seed. It takes minutes, and the gate doesn't run it.

The jobs are those of crates/job_rows whose commands stand in COMMANDS, their examples among them. One to four times one of them is
damaged: some of its bytes are dropped, doubled, changed, cut off, moved or joined with those of another job; or one of its words is put
in the place of another of its sort; or a part of its value is dropped, doubled, or exchanged for one of another job's. Each run has to end

- with the status and the text that the slow second reading of scripts/second.py has, of whatever command and whatever bytes; there is
  memory enough, so 6 is none;
- and with a line of `explain`, where that knows the command, that scripts/explained.py takes: `Job` where it doesn't end with 2, and
  else why it does;
- within ten times the median of the runs that end with 0, of its command and of as many bytes, up to twice as many, where there are
  FEW such runs. It is the time of the processor; a run that takes longer is run ten times more, and the shortest one counts.

Each of the first twenty runs that don't has a line with its job in base64; the last line is `N passed, M failed`.
"""

import argparse
import base64
import collections
import gc
import json
import multiprocessing
import os
import pathlib
import random
import re
import statistics
import sys
import tempfile
import time

ROOT = pathlib.Path(__file__).resolve().parent.parent
sys.dont_write_bytecode = True
sys.path += [str(ROOT / "bindings"), str(ROOT / "bindings" / "python"), str(ROOT / "scripts")]
import explained  # noqa: E402
import install  # noqa: E402
import jobs  # noqa: E402
import second  # noqa: E402
import smithy_bind  # noqa: E402

ROWS = ROOT / "crates" / "job_rows"
COMMANDS = ("request", "rpc", "response", "recover", "route", "gateway", "answer", "aws request", "aws response")
# Longer rows are left out, so that a run is short.
MOST_BYTES = 20_000
BATCH = 5_000
TIMES_MEDIAN = 10
AGAIN = 10
FEW = 30
MOST_SHOWN = 20
WORD = re.compile(rb'"(?:[^"\\]|\\.)*"|-?[0-9][0-9.eE+-]*|true|false|null|[][{}:,]')
EDGES = b'"\\{}[]:,0-.eE \n\t\x00\x1f\x7f\x80\xc3\xe2\xed\xf4\xff/%#$&=?+;'

# A job of a command, its words and its value; how a run ends.
Sample = collections.namedtuple("Sample", "command data words value")
End = collections.namedtuple("End", "status text")


# The damage.


def samples():
    """The rows, those that are jobs four times, so that more of what is made of them is."""
    found = []
    with open(ROWS / "stdin", encoding="utf-8") as given, open(ROWS / "stdout", encoding="utf-8") as ends:
        for row, end in zip(map(json.loads, given), ends):
            job, command = row["job"], " ".join(row["words"])
            data = job.encode() if isinstance(job, str) else base64.b64decode(job["base64"])
            if command in COMMANDS and len(data) <= MOST_BYTES:
                sample = Sample(command, data, WORD.findall(data), value_of(data))
                found += [sample] * (1 if end.startswith("2 ") else 4)
    return found


def value_of(data):
    """The value of bytes as Python has it; none of what is no JSON."""
    try:
        return json.loads(data)
    except ValueError:
        return None


def damaged_bytes(random, data, other):
    """Bytes of which some, mostly few, are dropped, doubled, changed, cut off, moved, or joined with others."""
    start = random.randrange(len(data) + 1)
    end = min(len(data), start + random.choice((0, 1, 1, 1, 2, 3, 4, 8, 64, len(data))))
    how = random.choice(("drop", "double", "change", "change", "change", "change", "cut", "join", "move"))
    if how == "change":
        return data[:start] + changed_byte(random, data[start : start + 1]) + data[start + 1 :]
    if how == "drop":
        return data[:start] + data[end:]
    if how == "double":
        return data[:end] + data[start:]
    if how == "cut":
        return data[:start] if random.random() < 0.5 else data[start:]
    if how == "join":
        first = random.randrange(len(other) + 1)
        return data[:start] + other[first : first + end - start] + data[end:]
    rest = data[:start] + data[end:]
    at = random.randrange(len(rest) + 1)
    return rest[:at] + data[start:end] + rest[at:]


def changed_byte(random, byte):
    if byte and random.random() < 0.3:
        return bytes([byte[0] ^ 1 << random.randrange(8)])
    return bytes([random.choice(EDGES) if random.random() < 0.7 else random.randrange(256)])


def damaged_words(random, words, other):
    """Words of which one is in the place of another of its sort: a text, a number, a word or a sign."""
    at = random.randrange(len(words))
    sort = words[at][:1]
    alike = [it for it in random.choice((words, other)) if it[:1] == sort and it != words[at]]
    return [*words[:at], random.choice(alike), *words[at + 1 :]] if alike else words


def damaged_value(random, value, other):
    """A value of which one part, at any depth, is dropped, doubled, or exchanged for one of another value."""
    if not isinstance(value, (list, dict)) or not value or random.random() < 0.1:
        return part_of(random, other)
    if isinstance(value, list):
        at = random.randrange(len(value))
        head, part, tail = value[:at], value[at], value[at + 1 :]
        how = random.randrange(10)
        return head + tail if how == 0 else [*head, part, part, *tail] if how == 1 else [*head, damaged_value(random, part, other), *tail]
    name = random.choice(list(value))
    part, how = value[name], random.randrange(12)
    rest = {key: it for key, it in value.items() if key != name}
    if how == 0:
        return rest
    if how == 1:
        return {**value, random.choice(list(value)): part}
    if how == 2:
        return {**rest, name[:-1] if random.random() < 0.5 else name + "a": part}
    return {**value, name: damaged_value(random, part, other)}


def part_of(random, value):
    while isinstance(value, (list, dict)) and value and random.random() < 0.8:
        value = random.choice(list(value.values()) if isinstance(value, dict) else value)
    return value


def damaged_job(random, jobs):
    """A command, and a job that was damaged, one to four times."""
    sample, other = random.choice(jobs), random.choice(jobs)
    command = sample.command if random.random() < 0.95 else random.choice(COMMANDS)
    how, data, words, value = random.randrange(3), sample.data, sample.words, sample.value
    for _ in range(random.choice((1, 1, 1, 2, 3, 4))):
        if how == 1 and words:
            words = damaged_words(random, words, other.words)
            data = b"".join(words)
        elif how == 2 and value is not None:
            value = damaged_value(random, value, other.value)
            data = json.dumps(value, separators=(",", ":"), ensure_ascii=False).encode("utf-8", "surrogatepass")
        else:
            data = damaged_bytes(random, data, other.data)
    return command, data


# The runs.


def end_of(library, command, data):
    """The end of a call of the library, and the processor's nanoseconds that it took."""
    begun = time.thread_time_ns()
    end = End(*library.ended(command, data))
    return end, time.thread_time_ns() - begun


def differs(library, command, data, values, end):
    """How a run is not as it has to be, over bytes of this value, alone in a list, which is empty where they are no JSON."""
    if len(data) > jobs.MOST_BYTES:
        return None if end == (7, b"") else "is too long"
    due = second.ended(command, values)
    if end != due:
        return f"is to end with {due[0]} and {due[1][:200]!r}"
    if command not in jobs.READINGS:
        return None
    line = f"{library.explain(command, data)}\n".encode()
    how = explained.line_differs(command, data, values, end.status, line)
    return f"has the line {line[:200]!r}, and {how}" if how else None


# What a batch found: how many runs of each status, times by command and size, the slowest runs, and what differs.
Found = collections.namedtuple("Found", "statuses times slowest wrong")


def size_of(command, data):
    return command, len(data).bit_length()


def batch(number):
    library, seed, jobs_of_rows, count = STATE
    chosen = random.Random(f"{seed} {number}")
    statuses, times, slowest, wrong = collections.Counter(), collections.defaultdict(list), {}, []
    gc.disable()
    for _ in range(min(BATCH, count - number * BATCH)):
        command, data = damaged_job(chosen, jobs_of_rows)
        end, spent = end_of(library, command, data)
        how = differs(library, command, data, explained.value_of(data), end)
        statuses[command, end.status] += 1
        if how:
            wrong.append((command, data, f"ends with {end.status} and {end.text[:200]!r}, which {how}"))
        size = size_of(command, data)
        if end.status == 0:
            times[size].append(spent)
        slowest.setdefault(size, []).append((spent, data))
        slowest[size] = sorted(slowest[size], reverse=True)[:3]
    gc.enable()
    return Found(statuses, dict(times), slowest, wrong)


STATE = None


def begin(path, *state):
    global STATE
    STATE = (smithy_bind.Library(path), *state)


# The whole.


def slow_runs(library, found):
    """The runs that take too long, each with its times; and the medians."""
    times, slowest = collections.defaultdict(list), collections.defaultdict(list)
    for it in found:
        for size, spent in it.times.items():
            times[size] += spent
        for size, few in it.slowest.items():
            slowest[size] += few
    medians = {size: statistics.median(it) for size, it in times.items() if len(it) >= FEW}
    slow = []
    for size, median in medians.items():
        for spent, data in slowest[size]:
            if spent > TIMES_MEDIAN * median:
                least = min(end_of(library, size[0], data)[1] for _ in range(AGAIN))
                if least > TIMES_MEDIAN * median:
                    slow.append((size[0], data, f"takes {least:,} ns, where the median of its size is {median:,.0f}"))
    return slow, medians, times


def told(found, medians, times):
    """Prints how the runs ended, and how long they took."""
    statuses = sum((it.statuses for it in found), collections.Counter())
    for command in COMMANDS:
        print(f"{command}: " + ", ".join(f"{count:,} of status {it[1]}" for it, count in sorted(statuses.items()) if it[0] == command))
    print("| Bytes | Runs of status 0 | Median, µs | Slowest by the median |\n|---|---|---|---|")
    for size, median in sorted(medians.items(), key=lambda it: (COMMANDS.index(it[0][0]), it[0][1])):
        spent = times[size]
        print(f"| {size[0]}, {2 ** (size[1] - 1):,} to {2 ** size[1] - 1:,} | {len(spent):,} | {median / 1000:.1f} | {max(spent) / median:.1f} |")


def shared(folder, work):
    """The shared object of the library."""
    if folder is not None:
        os.environ["SMITHY_BIND_LIB"] = folder
    return install.install(pathlib.Path(work)) / "libsmithy_bind.so"


def main():
    words = argparse.ArgumentParser(description=__doc__, formatter_class=argparse.RawDescriptionHelpFormatter)
    words.add_argument("--runs", type=int, default=1_000_000)
    words.add_argument("--seed", default="0")
    words.add_argument("--processes", type=int, default=os.cpu_count())
    words.add_argument("--library")
    asked = words.parse_args()
    with tempfile.TemporaryDirectory() as work:
        state = (shared(asked.library, work), asked.seed, samples(), asked.runs)
        with multiprocessing.Pool(asked.processes, begin, state) as pool:
            found = pool.map(batch, range(-(-asked.runs // BATCH)), 1)
        slow, medians, times = slow_runs(smithy_bind.Library(state[0]), found)
    told(found, medians, times)
    wrong = [it for batch in found for it in batch.wrong] + slow
    for command, data, how in wrong[:MOST_SHOWN]:
        print(f"{command} {how}: {base64.b64encode(data).decode()}")
    print(f"{asked.runs - len(wrong)} passed, {len(wrong)} failed")
    return 1 if wrong else 0


if __name__ == "__main__":
    sys.exit(main())
