#!/bin/sh
# Times the program receive on a clean stream beside bench/baseline.rs, which does the same work in plain Rust, and compares what they write.
# Needs rt, rustc and python3. What it makes goes to target/bench.
set -eu
cd "$(dirname "$0")/.."

# 34 MB, in whole payloads
octets=34000032
runs=3
made=target/bench
mkdir -p "$made"

tools/build.sh send receive
rustc -O --edition 2021 -o "$made/baseline" bench/baseline.rs

python3 -c "
import random, sys
count = int(sys.argv[1])
sys.stdout.buffer.write(random.Random(34).getrandbits(8 * count).to_bytes(count, 'big'))
" "$octets" > "$made/block"
crates/send/out/send < "$made/block" > "$made/line"

# best LINE OUT COMMAND...: the best of some runs of a command from one file to another, in line bits a second
best() {
    python3 -c "
import os, subprocess, sys, time
runs, line, out = int(sys.argv[1]), sys.argv[2], sys.argv[3]
seconds = []
for _ in range(runs):
    with open(line, 'rb') as given, open(out, 'wb') as written:
        begun = time.perf_counter()
        subprocess.run(sys.argv[4:], stdin=given, stdout=written, stderr=subprocess.DEVNULL, check=True)
        seconds.append(time.perf_counter() - begun)
bits = 8 * os.path.getsize(line)
print(f'{bits / min(seconds) / 1e6:.0f} Mbit/s, the best of {runs} runs ({min(seconds):.2f} s for {bits // 8} line octets)')
" "$runs" "$@"
}

printf 'receive:  '
best "$made/line" "$made/received" crates/receive/out/receive --payloads
printf 'baseline: '
best "$made/line" "$made/expected" "$made/baseline"

cmp "$made/received" "$made/expected"
cmp "$made/received" "$made/block"
echo "both write the block again"
