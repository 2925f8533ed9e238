#!/bin/sh
# Makes a repository of some crates in a folder, without their tests' expected output and their must-fail edits:
# copy.sh FOLDER CRATE..
set -eu
here=$(cd "$(dirname "$0")" && pwd)
work=$1
shift
mkdir "$work/crates"
cp "$here/../HANDLES" "$work"
for crate in "$@"; do
    mkdir "$work/crates/$crate"
    for part in src specs proofs; do
        cp -r "$here/../crates/$crate/$part" "$work/crates/$crate"
    done
    grep "^$crate:" "$here/../crates.txt" >> "$work/crates.txt"
done
