#!/usr/bin/env bash
# Tries the must-fail edits that stand outside the gate, of the crates that are named or of all, in a clone of what is
# committed, so that nothing here changes. Each must be refused: it ends with 1 where one isn't, or can't be applied,
# which rt ci lets pass. What rt ci has kept on this machine isn't proved anew.
set -euo pipefail
here=$(cd "$(dirname "$0")/.." && pwd)
room=$(mktemp -d)
trap 'rm -rf "$room"' EXIT
git clone -q "$here" "$room/hyd"
cd "$room/hyd"
[ $# -gt 0 ] || set -- $(ls scripts/edits)
for crate in "$@"; do
    mkdir -p "crates/$crate/must-fail"
    cp scripts/edits/"$crate"/*.edit "crates/$crate/must-fail/"
done
rt ci "$@" 2>&1 | tee "$room/log"
if grep -q 'BAD EDIT' "$room/log"; then
    echo "an edit can't be applied: see BAD EDIT above" >&2
    exit 1
fi
