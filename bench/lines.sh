#!/bin/sh
# Times the reading of 100,000 lines of 60 bytes, beside a plain Rust program that reads the same lines.
# For each the least of many runs, taken in turn. It first proves a copy of the crates.
set -eu
here=$(cd "$(dirname "$0")" && pwd)
work=$(mktemp -d)
trap 'rm -rf "$work"' EXIT

"$here/copy.sh" "$work" wasp_fixed plant_data deck_lines
echo 'time_lines: deck_lines' >> "$work/crates.txt"
mkdir -p "$work/crates/time_lines/src"
cp "$here/lines.rt.txt" "$work/crates/time_lines/src/main.rt"
cp "$here/lines.rs.txt" "$work/lines.rs"

(cd "$work/crates/time_lines" && rt run) > "$work/log" 2>&1 || { tail -20 "$work/log" >&2; exit 1; }
rustc -O "$work/lines.rs" -o "$work/lines"
for turn in 1 2 3 4 5; do
    "$work/crates/time_lines/out/time_lines" | sed 's/^/rattle /'
    "$work/lines" | sed 's/^/rust /'
done > "$work/times"

# program, "numbers", numbers, "ns", ns
awk '{
    if (NR > 1 && $3 != numbers) { print "the numbers differ"; failed = 1 }
    numbers = $3
    if (!($1 in least) || $5 < least[$1]) least[$1] = $5
}
END {
    for (name in least) printf "%-7s %7.1f MB per second %5.2f\n", name, 6000000 * 1000 / least[name], least[name] / least["rust"]
    exit failed
}' "$work/times"
