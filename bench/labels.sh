#!/usr/bin/env bash
# Times the progress of labels beside the same workloads in ordinary Rust, with own hash chains as in Rattle and with a HashMap:
# nanoseconds of each, the ratios Rattle to Rust, and how the time of a step goes with its work.
# Usage: bench/labels.sh   (needs rustc; builds the Rattle program first, if it is not built yet)
set -euo pipefail
cd "$(dirname "$0")/.."
work=$(mktemp -d)
trap 'rm -r "$work"' EXIT
(cd crates/label_bench && rt run) >"$work/rt.log" 2>&1 || { cat "$work/rt.log"; exit 1; }
rustc -O -C target-cpu=x86-64-v2 --edition 2024 -o "$work/plain" bench/labels.rs 2>"$work/rustc.log" || { cat "$work/rustc.log"; exit 1; }
for _ in 1 2 3; do
    crates/label_bench/out/label_bench time >>"$work/rattle.txt"
    "$work/plain" time >>"$work/rust.txt"
    "$work/plain" time map >>"$work/map.txt"
done
"$work/plain" work >"$work/work.txt"
python3 - "$work/rattle.txt" "$work/rust.txt" "$work/map.txt" "$work/work.txt" <<'PYTHON'
import sys


def best(path):
    times, checks = {}, {}
    for line in open(path):
        name, check, nanoseconds = line.rstrip("\n").split(": ")
        times[name] = min(int(nanoseconds), times.get(name, 1 << 62))
        checks[name] = check
    return times, checks


rattle, rattle_checks = best(sys.argv[1])
rust, rust_checks = best(sys.argv[2])
hash_map, map_checks = best(sys.argv[3])
work = dict(line.rstrip("\n").split(": ") for line in open(sys.argv[4]))
if not rattle_checks == rust_checks == map_checks:
    sys.exit(f"the check values differ: {rattle_checks} {rust_checks} {map_checks}")
print(f"{'all steps of':45}{'Rattle':>14}{'Rust':>14}{'ratio':>8}{'HashMap':>14}{'ratio':>8}")
for name in rattle:
    by_chains = f"{rust[name]:11} ns{rattle[name] / rust[name]:8.2f}"
    by_map = f"{hash_map[name]:11} ns{rattle[name] / hash_map[name]:8.2f}"
    print(f"{name:45}{rattle[name]:11} ns{by_chains}{by_map}")
print(f"\n{'a step of':45}{'work':>14}{'Rattle':>14}{'per label':>13}")
for name in rattle:
    steps = len(rattle_checks[name].split()) - 1
    mean, step = int(work[name]) / steps, rattle[name] / steps
    print(f"{name:45}{mean:14.0f}{step:11.0f} ns{step / mean:10.1f} ns")
PYTHON
