#!/bin/sh
# Times one row of 30 two-block units on 3,000 cells, for four periods and three hydro conditions: the least of
# many runs. It first proves a copy of the crates.
set -eu
here=$(cd "$(dirname "$0")" && pwd)
work=$(mktemp -d)
trap 'rm -rf "$work"' EXIT

"$here/copy.sh" "$work" wasp_fixed plant_data year_system deck_lines convolution load_curves hydro_shave loading_order cost_terms deck_check checked_deck sim_engine
echo 'time_engine: plant_data year_system deck_lines checked_deck sim_engine' >> "$work/crates.txt"
mkdir -p "$work/crates/time_engine/src" "$work/crates/time_engine/proofs/time_rows"
cp "$here/engine.rt.txt" "$work/crates/time_engine/src/main.rt"
cp "$here/engine_invariants.antt.txt" "$work/crates/time_engine/proofs/time_rows/Invariants.antt"
(cd "$work/crates/time_engine" && rt run) > "$work/log" 2>&1 || { tail -20 "$work/log" >&2; exit 1; }
for turn in 1 2 3; do
    "$work/crates/time_engine/out/time_engine"
done
