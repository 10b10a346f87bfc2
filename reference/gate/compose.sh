#!/bin/bash
# Makes the script that the gate answers, crates/replay/stdin, and the reference's answers to it, crates/replay/stdout.
#
#   compose.sh [SEED COUNT]
#
# First the steps in this directory, one file a section of document 01 or a request, with answers beside them that were
# worked out by hand (`cargo test` compares them). `start` is the first of all: it asks what holds before any step. Then
# the table and the cutting cases of document 01, the examples, COUNT random steps of SEED, and the lines of the format,
# which are the last because they end without a newline. `explain` is left out: its words are not the reference's.
set -euo pipefail

seed=${1:-20261115} count=${2:-2500}
here=$(cd "$(dirname "$0")" && pwd)
reference=$(dirname "$here")
root=$(dirname "$reference")
gate=$root/crates/replay

(cd "$reference" && cargo build --release --bin reference --offline --quiet)
program=${CARGO_TARGET_DIR:-$reference/target}/release/reference

compose() {
    echo "# Made by reference/gate/compose.sh $seed $count, which says what stands here. The answers are the reference's."
    for section in start book elements lengths states gathering legal refusals status count burst; do
        cat "$here/$section.script"
    done
    cat "$reference/examples/table.script"
    for example in incident life three-cuts storm busy-hall; do
        cat "$root/examples/$example.script"
    done
    "$program" --generate "$seed" "$count"
    cat "$reference/examples/format.script"
}

compose | LC_ALL=C sed '/^explain$/d' >"$gate/stdin"
"$program" "$gate/stdin" >"$gate/stdout"
