#!/bin/sh
# Times the loops over curves against C, built at the same processor features: for each the least of many
# runs, taken in turn, and its ratio to the fastest C program. It first proves a copy of the crates.
set -eu
here=$(cd "$(dirname "$0")" && pwd)
work=$(mktemp -d)
trap 'rm -rf "$work"' EXIT

"$here/copy.sh" "$work" wasp_fixed plant_data convolution load_curves hydro_shave
echo 'time_convolution: convolution' >> "$work/crates.txt"
echo 'time_curves: plant_data convolution load_curves hydro_shave' >> "$work/crates.txt"
mkdir -p "$work/crates/time_convolution/src" "$work/crates/time_curves/src" "$work/crates/time_curves/proofs/shape"
cp "$here/convolution.rt.txt" "$work/crates/time_convolution/src/main.rt"
cp "$here/curves.rt.txt" "$work/crates/time_curves/src/main.rt"
cp "$here/curves_invariants.antt.txt" "$work/crates/time_curves/proofs/shape/Invariants.antt"

mkdir "$work/bin"
for cpu in x86-64-v2 x86-64-v3; do
    for crate in time_convolution time_curves; do
        (cd "$work/crates/$crate" && rt run --cpu $cpu) > "$work/log" 2>&1 || { tail -20 "$work/log" >&2; exit 1; }
        cp "$work/crates/$crate/out/$crate" "$work/bin/$cpu rattle $crate"
    done
    gcc -O3 -march=$cpu "$here/convolution.c" -o "$work/bin/$cpu c convolution"
    gcc -O3 -march=$cpu -DPLAIN "$here/convolution.c" -o "$work/bin/$cpu c-plain convolution"
    gcc -O3 -march=$cpu "$here/curves.c" -o "$work/bin/$cpu c curves"
done
# what gcc gives by its default features, and with AVX2 alone
for program in convolution curves; do
    gcc -O3 "$here/$program.c" -o "$work/bin/x86-64-v2 c-O3 $program"
    gcc -O3 -mavx2 "$here/$program.c" -o "$work/bin/x86-64-v3 c-O3-mavx2 $program"
done
for turn in 1 2 3 4 5; do
    for program in "$work"/bin/*; do
        name=$(basename "$program")
        "$program" | sed "s/^/${name% *} /"
    done
done > "$work/times"

# processor, program, what, "area", area, "cells", cells, "ns", ns
awk '{
    what = $1 " " $3
    if (what in area && area[what] != $5) { print "the areas differ: " what; failed = 1 }
    area[what] = $5
    time = $9 / $7
    if (!((what, $2) in least)) { order[++count] = what SUBSEP $2 }
    if (!((what, $2) in least) || time < least[what, $2]) least[what, $2] = time
    if ($2 != "rattle" && (!(what in best) || time < best[what])) best[what] = time
}
END {
    for (i = 1; i <= count; i++) {
        split(order[i], part, SUBSEP)
        printf "%-19s %-11s %6.3f ns a cell %5.2f\n", part[1], part[2], least[order[i]], least[order[i]] / best[part[1]]
    }
    exit failed
}' "$work/times"
