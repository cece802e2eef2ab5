#!/usr/bin/env bash
# Times whole reports of files of 40,000 bytes beside the same in ordinary Rust: nanoseconds of each, and the ratio.
# Usage: bench/reports.sh   (needs rustc and python3; builds the Rattle program first, if it is not built yet)
set -euo pipefail
cd "$(dirname "$0")/.."
work=$(mktemp -d)
trap 'rm -r "$work"' EXIT
(cd crates/report_bench && rt run <stdin) >"$work/rt.log" 2>&1 || { cat "$work/rt.log"; exit 1; }
rustc -O -C target-cpu=x86-64-v2 --edition 2024 -o "$work/plain" bench/reports.rs 2>"$work/rustc.log" || { cat "$work/rustc.log"; exit 1; }
python3 bench/report_files.py "$work"
printf '%-22s%10s%17s%17s%8s\n' 'report of' bytes Rattle Rust ratio
for file in "$work"/*.edp; do
    read -r length sum rattle < <(crates/report_bench/out/report_bench time <"$file")
    read -r plain_length plain_sum plain < <("$work/plain" time <"$file")
    if [ "$length $sum" != "$plain_length $plain_sum" ]; then
        echo "$(basename "$file"): the reports differ"
        exit 1
    fi
    ratio=$(python3 -c "print(f'{$rattle / $plain:.2f}')")
    printf '%-22s%10s%14s ns%14s ns%8s\n' "$(basename "$file" .edp)" "$length" "$rattle" "$plain" "$ratio"
done
