#!/usr/bin/env bash
# Runs the gate and fails where it fails, and where an edit that the prover has to refuse could not be tried: such an edit
# shows nothing, and the gate only counts it. Its last line is that of `rt ci`: how many passed, and how many failed.
set -euo pipefail
cd "$(dirname "$0")/.."
mkdir -p target
rt ci 2>&1 | tee target/ci.log
if grep -qE '^rt: ok.*, [1-9][0-9]* bad' target/ci.log; then
    echo "gate: an edit in must-fail/ could not be tried" >&2
    exit 1
fi
