#!/bin/sh
# Times the least-cost plan of 30 years with 10 to 500 configurations each, and the listing of a tunnel of
# 984,064, beside a plain Rust program of the same work. For each the least of many runs, taken in turn. It
# first proves a copy of the crates.
set -eu
here=$(cd "$(dirname "$0")" && pwd)
work=$(mktemp -d)
trap 'rm -rf "$work"' EXIT

"$here/copy.sh" "$work" wasp_fixed plant_data year_system tunnel_configs cost_terms plan_program
echo 'time_plan: plant_data year_system tunnel_configs cost_terms plan_program' >> "$work/crates.txt"
mkdir -p "$work/crates/time_plan/src" "$work/crates/time_plan/proofs"
cp "$here/plan.rt.txt" "$work/crates/time_plan/src/main.rt"
cp "$here/plan.rs.txt" "$work/plan.rs"
(cd "$here/plan_proofs" && find . -name '*.txt') | while read -r file; do
    mkdir -p "$work/crates/time_plan/proofs/$(dirname "$file")"
    cp "$here/plan_proofs/$file" "$work/crates/time_plan/proofs/${file%.txt}"
done

(cd "$work/crates/time_plan" && rt run) > "$work/log" 2>&1 || { tail -20 "$work/log" >&2; exit 1; }
rustc -O "$work/plan.rs" -o "$work/plan"
for turn in 1 2 3 4 5; do
    "$work/crates/time_plan/out/time_plan" | sed 's/^/rattle /'
    "$work/plan" | sed 's/^/rust /'
done > "$work/times"

# program, what, "numbers", numbers, "ns", ns
awk '{
    if ($2 in numbers && $4 != numbers[$2]) { print "the numbers differ: " $2; failed = 1 }
    numbers[$2] = $4
    if (!(($2, $1) in least)) { order[++count] = $2 SUBSEP $1 }
    if (!(($2, $1) in least) || $6 < least[$2, $1]) least[$2, $1] = $6
}
END {
    for (i = 1; i <= count; i++) {
        split(order[i], part, SUBSEP)
        printf "%-15s %-7s %8.2f ms %5.2f\n", part[1], part[2], least[order[i]] / 1e6, least[order[i]] / least[part[1], "rust"]
    }
    exit failed
}' "$work/times"
