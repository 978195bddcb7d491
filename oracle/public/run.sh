#!/usr/bin/env bash
# Holds the archive's lookups against KOpeningHours: `run.sh [SEED [COUNT]]` makes COUNT sheets, writes the line of each one's fold, looks
# moments up in the sheet, and asks the evaluator for the line at these moments. HOURS_ARCHIVE names another folder to take the archive from.

set -euo pipefail

seed=${1:-1}
count=${2:-120000}
here=$(dirname "$(realpath "$0")")

cmake -S "$here" -B "$here/target" -DCMAKE_BUILD_TYPE=Release >&2
cmake --build "$here/target" >&2
cargo run --quiet --release --manifest-path "$here/../scale/Cargo.toml" --bin moments -- --seed "$seed" --count "$count" |
    "$here/target/public"
