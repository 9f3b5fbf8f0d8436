#!/bin/sh
# Time and peak memory of the program, on the example and on a job padded to 16 MiB.
here=$(cd "$(dirname "$0")/.." && pwd)
work=$(mktemp -d)
trap 'rm -rf "$work"' EXIT
"$here/smithy_bind" --build || exit 70
built=$here/crates/smithy_bind_program/out/smithy_bind_program

cp "$here/examples/get_object.json" "$work/example"
python3 - "$here/examples/get_object.json" "$work" <<'PY'
import json, sys
source, work = sys.argv[1], sys.argv[2]
most = 16777216
text = open(source).read().strip()

def padded(text, name):
    with open(f"{work}/{name}", "w") as out:
        out.write(text + " " * (most - len(text.encode())))

padded(text, "padded_with_spaces")

job = json.loads(text)
job["input"] = [["Bucket", "b"], ["Key", "k"]]
pair = ',["Id",12345]'
head = json.dumps(job, separators=(",", ":"))
assert head.endswith('["Key","k"]]}')
count = (most - len(head)) // len(pair)
padded(head[:-2] + pair * count + "]}", "many_pairs")

members = job["model"]["shapes"]["ex#GetIn"]["members"]
many = "".join(f',"M{i}":{{"target":"smithy.api#Integer","traits":{{"smithy.api#httpHeader":"X-M{i}"}}}}' for i in range(120000))
head = json.dumps(job, separators=(",", ":"))
spot = '"traits":{"smithy.api#httpHeader":"X-Id"}}'
assert spot in head
head = head.replace(spot, spot + many, 1)
pairs = "".join(f',["M{i}",{i}]' for i in range(120000))
padded(head[:-2] + pairs + "]}", "many_members")
PY

echo "cores: $(nproc)"
echo
echo "| Job | Bytes | Status | Seconds | Peak memory, MiB |"
echo "|---|---|---|---|---|"
for job in example padded_with_spaces many_pairs many_members; do
    bytes=$(wc -c < "$work/$job")
    /usr/bin/time -f '%e %M' -o "$work/times" "$built" request < "$work/$job" > "$work/out"
    status=$?
    seconds=$(tail -n 1 "$work/times" | cut -d ' ' -f 1)
    kilobytes=$(tail -n 1 "$work/times" | cut -d ' ' -f 2)
    echo "| $job | $bytes | $status | $seconds | $((kilobytes / 1024)) |"
done
