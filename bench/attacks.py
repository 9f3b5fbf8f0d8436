"""Measures jobs that are made to cost much, each in two sizes: instructions, processor seconds and peak memory of the built program, and
the stack that the deepest jobs take.

    python3 bench/attacks.py [--program PROGRAM] [--only TEXT] [--fast]

Without a PROGRAM it is the program of this repository, which ./smithy_bind --build makes first where it is older than its sources. It
needs `valgrind` and GNU `time`; with --fast instructions are not counted. A row is of the second size, which has so many times the
bytes of the first and so many times its cost: instructions, or with --fast processor seconds. Memory is the peak of the second,
without that of a job of no bytes; what of it is past 1 MB is told by the byte of job.
"""

import argparse
import collections
import pathlib
import re
import resource
import subprocess
import sys
import tempfile

sys.dont_write_bytecode = True
from attack_jobs import ATTACKS, DEEPEST  # noqa: E402

ROOT = pathlib.Path(__file__).resolve().parent.parent
MEGABYTE = 1_000_000
SECONDS = 600
STACKS = [2**it for it in range(15, 24)]

# Runs.

# The status, the seconds of the processor, and the peak of memory in bytes.
Run = collections.namedtuple("Run", "status seconds memory")


def run(program, command, path, folder):
    timed = ["/usr/bin/time", "-q", "-f", "%M", "-o", f"{folder}/peak", program, *command.split()]
    begun = processor_seconds()
    with open(path, "rb") as given:
        done = subprocess.run(timed, stdin=given, stdout=subprocess.DEVNULL, timeout=SECONDS)
    return Run(done.returncode, processor_seconds() - begun, int(pathlib.Path(folder, "peak").read_text()) * 1024)


def processor_seconds():
    used = resource.getrusage(resource.RUSAGE_CHILDREN)
    return used.ru_utime + used.ru_stime


def instructions(program, command, path, folder):
    words = ["valgrind", "--tool=callgrind", f"--callgrind-out-file={folder}/counts", program, *command.split()]
    with open(path, "rb") as given:
        done = subprocess.run(words, stdin=given, stdout=subprocess.DEVNULL, stderr=subprocess.PIPE, text=True, timeout=20 * SECONDS)
    return int(re.search(r"Collected : (\d+)", done.stderr)[1])


def written(folder, data):
    path = pathlib.Path(folder) / "job"
    path.write_text(data)
    return path


def measured(program, attack, folder, is_fast, none):
    """The row of an attack in the table."""
    sizes, costs = [], []
    for size in attack.sizes:
        path = written(folder, attack.job(size))
        sizes.append(path.stat().st_size)
        found = run(program, attack.command, path, folder)
        cost = found.seconds if is_fast else instructions(program, attack.command, path, folder)
        costs.append(cost)
    memory = max(0, found.memory - none - MEGABYTE) / sizes[1]
    cost = "" if is_fast else f"{costs[1]:,}"
    size, grows, costs_grow = sizes[1], sizes[1] / sizes[0], costs[1] / costs[0]
    told = (attack.name, f"`{attack.command}`", f"{attack.sizes[1]:,}", f"{size:,}", found.status, f"{found.seconds:.2f}", cost)
    return "| " + " | ".join(map(str, told)) + f" | {grows:.1f} | {costs_grow:.1f} | {memory:.1f} |"


def stack(program, attack, folder):
    """The status of the deepest job, and the least stack of STACKS by which it ends so."""
    path = written(folder, attack.job())
    wanted = run(program, attack.command, path, folder).status
    for most in STACKS:
        with open(path, "rb") as given:
            done = subprocess.run([program, *attack.command.split()], stdin=given, stdout=subprocess.DEVNULL,
                                  preexec_fn=lambda: resource.setrlimit(resource.RLIMIT_STACK, (most, most)))  # fmt: skip
        if done.returncode == wanted:
            return f"| {attack.name} | `{attack.command}` | {wanted} | {most // 1024} KiB |"
    return f"| {attack.name} | `{attack.command}` | {wanted} | more |"


def built():
    subprocess.run([ROOT / "smithy_bind", "--build"], check=True)
    return ROOT / "crates" / "smithy_bind_program" / "out" / "smithy_bind_program"


def main():
    words = argparse.ArgumentParser(description=__doc__, formatter_class=argparse.RawDescriptionHelpFormatter)
    words.add_argument("--program", type=pathlib.Path)
    words.add_argument("--only", default="")
    words.add_argument("--fast", action="store_true")
    asked = words.parse_args()
    program = asked.program.resolve() if asked.program else built()
    with tempfile.TemporaryDirectory() as folder:
        none = run(program, "request", written(folder, ""), folder).memory
        print("| Job | Command | N | Bytes | Status | Seconds | Instructions | Bytes grow | Cost grows | Memory past 1 MB, bytes a byte |")
        print("|" + "---|" * 10)
        for attack in ATTACKS:
            if asked.only in attack.name:
                print(measured(program, attack, folder, asked.fast, none), flush=True)
        print("\n| Deepest job | Command | Status | Stack that is enough |\n|---|---|---|---|")
        for attack in DEEPEST:
            if asked.only in attack.name:
                print(stack(program, attack, folder), flush=True)


if __name__ == "__main__":
    sys.exit(main())
