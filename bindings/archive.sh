#!/usr/bin/env bash
# Proves the exports and what they rest on, and writes target/staticlib/libhours.a: x86-64 code with the System V calling convention.
set -euo pipefail
cd "$(dirname "$0")/.."
(cd crates/hours_c && rt lib)
mkdir -p target/staticlib
cp crates/hours_c/out/libhours_c.a target/staticlib/libhours.a
