#!/usr/bin/env bash
# Times the registers beside the same workloads in ordinary Rust: nanoseconds of each, and the ratio Rattle to Rust.
# Usage: bench/registers.sh   (needs rustc; builds the Rattle program first, if it is not built yet)
set -euo pipefail
cd "$(dirname "$0")/.."
work=$(mktemp -d)
trap 'rm -r "$work"' EXIT
(cd crates/register_bench && rt run) >"$work/rt.log" 2>&1 || { cat "$work/rt.log"; exit 1; }
rustc -O -C target-cpu=x86-64-v2 --edition 2024 -o "$work/plain" bench/registers.rs 2>"$work/rustc.log" || { cat "$work/rustc.log"; exit 1; }
for _ in 1 2 3; do
    crates/register_bench/out/register_bench time >>"$work/rattle.txt"
    "$work/plain" time >>"$work/rust.txt"
done
python3 - "$work/rattle.txt" "$work/rust.txt" <<'PYTHON'
import sys


def best(path):
    times, checks = {}, {}
    for line in open(path):
        name, check, nanoseconds = line.rstrip("\n").split(": ")
        times[name] = min(int(nanoseconds), times.get(name, 1 << 62))
        checks[name] = check
    return times, checks


rattle, rattle_checks = best(sys.argv[1])
rust, rust_checks = best(sys.argv[2])
if rattle_checks != rust_checks:
    sys.exit(f"the check values differ: {rattle_checks} {rust_checks}")
print(f"{'':45}{'Rattle':>14}{'Rust':>14}{'ratio':>8}")
for name in rattle:
    print(f"{name:45}{rattle[name]:11} ns{rust[name]:11} ns{rattle[name] / rust[name]:8.2f}")
PYTHON
