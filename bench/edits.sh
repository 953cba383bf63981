#!/usr/bin/env bash
# Tries the edits of crates that the gate has no time for: bench/edits/NAME/*.edit, in the same form as crates/NAME/must-fail/*.edit.
#
#     bench/edits.sh NAME ..        those of these crates
#     bench/edits.sh --since REV    those of each crate whose files changed since that revision
#
# They are lent to the crates' must-fail/ while `rt must-fail` runs, and its exit code is that of this script. Each must be refused.
set -eu
cd "$(dirname "$0")/.."
if [ "${1:-}" = --since ]; then
    mapfile -t names < <(git diff --name-only "$2" -- crates | cut -d/ -f2 | sort -u)
else
    names=("$@")
fi
lent=()
give_back() { [ ${#lent[@]} = 0 ] || rm -f "${lent[@]}"; }
trap give_back EXIT
tried=()
for name in "${names[@]}"; do
    [ -d "bench/edits/$name" ] || continue
    tried+=("$name")
    mkdir -p "crates/$name/must-fail"
    for edit in "bench/edits/$name"/*.edit; do
        to="crates/$name/must-fail/$(basename "$edit")"
        cp "$edit" "$to"
        lent+=("$to")
    done
done
if [ ${#tried[@]} = 0 ]; then
    echo "no edits stand in bench/edits for these crates" >&2
    exit 2
fi
rt must-fail "${tried[@]}"
