#!/usr/bin/env bash
# Runs a program over the examples and compares what it prints with their listings.
#
#     tools/try_examples.sh PROGRAM [ARGUMENT ..]      such as crates/keep/out/keep, or ./keep -
#
# The program gets a graph file as standard input. It may end with exit code 0 or 1; any other, or another listing, is a
# difference. Exit code: 0 if there is none, else 1; 2 without a program.
set -euo pipefail

if [[ $# -eq 0 ]]; then
    printf 'usage: tools/try_examples.sh PROGRAM [ARGUMENT ..]\n' >&2
    exit 2
fi
if ! command -v "$1" >/dev/null; then
    printf 'no program %s\n' "$1" >&2
    exit 2
fi

examples=$(dirname "$(readlink -f "${BASH_SOURCE[0]}")")/../examples
printed=$(mktemp)
trap 'rm -f "$printed"' EXIT
tried=0
differ=()
for graph in "$examples"/*.graph; do
    name=$(basename "$graph" .graph)
    tried=$((tried + 1))
    code=0
    "$@" <"$graph" >"$printed" || code=$?
    if [[ $code -gt 1 ]]; then
        printf '%s: exit code %s\n' "$name" "$code"
        differ+=("$name")
    elif ! diff -u --label "$name.listing" --label printed "$examples/$name.listing" "$printed"; then
        differ+=("$name")
    fi
done
if [[ ${#differ[@]} -gt 0 ]]; then
    printf '%s examples, %s differ: %s\n' "$tried" "${#differ[@]}" "${differ[*]}"
    exit 1
fi
printf '%s examples, all as listed\n' "$tried"
