"""Runs a program on jobs with a map of many members in the body, and prints a table of time and peak memory: large_maps.py PROGRAM FOLDER."""
import json
import subprocess
import sys
import time

PRELUDE = "smithy.api#"
SHAPES = {
    "ex#Put": {"type": "operation", "input": {"target": "ex#PutIn"}, "traits": {PRELUDE + "http": {"method": "PUT", "uri": "/p"}}},
    "ex#PutIn": {"type": "structure", "members": {"tags": {"target": "ex#Tags"}}},
    "ex#Tags": {"type": "map", "key": {"target": PRELUDE + "String"}, "value": {"target": PRELUDE + "String"}},
}
# Members of the map, and bytes of the job.
SIZES = [(10_000, 1_500_000), (100_000, 15_000_000)]
ROUNDS = 7


def job_of(members, size):
    """A job of this many bytes."""
    tags = {f"key{i:07}": "" for i in range(members)}
    job = {"model": {"shapes": SHAPES}, "operation": "ex#Put", "input": {"tags": tags}}
    short = size - len(json.dumps(job, separators=(",", ":")))
    for i, key in enumerate(tags):
        tags[key] = "v" * (short // members + (i < short % members))
    return json.dumps(job, separators=(",", ":"))


def run(program, job, folder):
    """Seconds and peak memory in bytes of one run."""
    timed = ["/usr/bin/time", "-f", "%M", "-o", f"{folder}/peak", program, "request"]
    with open(job, "rb") as given, open(f"{folder}/out", "wb") as written:
        begun = time.perf_counter()
        subprocess.run(timed, stdin=given, stdout=written, check=True)
        seconds = time.perf_counter() - begun
    return seconds, int(open(f"{folder}/peak").read()) * 1024


program, folder = sys.argv[1:]
print("| Members | Bytes of job | Seconds | Peak memory, bytes a byte of job |")
print("|---|---|---|---|")
best = []
for members, size in SIZES:
    job = f"{folder}/{members}"
    with open(job, "w") as out:
        out.write(job_of(members, size))
    rounds = [run(program, job, folder) for _ in range(ROUNDS)]
    best.append(min(seconds for seconds, _ in rounds))
    print(f"| {members:,} | {size:,} | {best[-1]:.3f} | {max(memory for _, memory in rounds) / size:.1f} |")
print(f"\nThe second takes {best[1] / best[0]:.1f} times as long as the first.\n")
