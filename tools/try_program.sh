#!/usr/bin/env bash
# Runs the program `keep`, and the command ./keep over it, on files at its limits, on input that comes in pieces, and where a read or a
# write fails.
#
#     tools/try_program.sh PROGRAM      such as crates/keep/out/keep
#
# The files, and what has to be printed for them, are made by tools/program_inputs.py. Exit code: 0 if all is as expected, else 1;
# 2 without a program.
set -euo pipefail

if [[ $# -ne 1 ]]; then
    printf 'usage: tools/try_program.sh PROGRAM\n' >&2
    exit 2
fi
if [[ ! -x $1 ]]; then
    printf 'no program %s\n' "$1" >&2
    exit 2
fi

program=$(readlink -f "$1")
tools=$(dirname "$(readlink -f "${BASH_SOURCE[0]}")")
keep=$tools/../keep
export KEEP_PROGRAM=$program
folder=$(mktemp -d)
trap 'rm -rf "$folder"' EXIT
"$tools/program_inputs.py" "$folder"
nothing=/dev/null
quiet='^$'
failure='^keep: '
read_failure='^keep: standard input: '
write_failure='^keep: standard output: '
tried=0
differ=()

# Runs a command: `expect NAME CODE LISTING SAID COMMAND ..`. It has to end with the exit code and to print what is in the file LISTING, and
# what it says on standard error has to be of the form SAID, a regular expression.
expect() {
    local name=$1 code=$2 listing=$3 said=$4 ended=0 faults=()
    shift 4
    tried=$((tried + 1))
    "$@" >"$folder/printed" 2>"$folder/said" || ended=$?
    [[ $ended -eq $code ]] || faults+=("exit code $ended, not $code")
    cmp -s "$listing" "$folder/printed" || faults+=("it printed: $(head -c 200 "$folder/printed")")
    [[ $(<"$folder/said") =~ $said ]] || faults+=("it said: $(head -c 200 "$folder/said")")
    [[ ${#faults[@]} -gt 0 ]] || return 0
    printf '%s:\n' "$name"
    printf '  %s\n' "${faults[@]}"
    differ+=("$name")
}

# A file of more than 4,001 bytes through a pipe, with a pause after each of two pieces.
in_pieces() {
    head -c 1 "$1"
    sleep 0.05
    head -c 4001 "$1" | tail -c 4000
    sleep 0.05
    tail -c +4002 "$1"
}

to_full() {
    "$@" >/dev/full
}

to_closed() {
    "$@" >&-
}

from_closed() {
    "$@" <&-
}

# Standard output is a pipe whose reader is gone.
to_no_reader() {
    python3 -c '
import os, subprocess, sys
reader, writer = os.pipe()
os.close(reader)
sys.exit(subprocess.run(sys.argv[1:], stdout=writer).returncode)' "$@"
}

# Standard input is a terminal at which the end of input is typed, once.
from_terminal() {
    python3 -c '
import os, pty, subprocess, sys
typed, terminal = pty.openpty()
os.write(typed, b"\x04")
sys.exit(subprocess.run(sys.argv[1:], stdin=terminal, timeout=10).returncode)' "$@"
}

for graph in "$folder"/*.graph; do
    name=$(basename "$graph" .graph)
    listing=$folder/$name.listing
    code=0
    [[ $(head -c 7 "$listing") != refused ]] || code=1
    expect "$name" 0 "$listing" "$quiet" "$program" <"$graph"
    expect "$name, command" "$code" "$listing" "$quiet" "$keep" "$graph"
done
for name in bytes_8192 bytes_8193; do
    expect "$name in pieces" 0 "$folder/$name.listing" "$quiet" "$program" < <(in_pieces "$folder/$name.graph")
done
graph=$folder/bytes_8192.graph

expect 'a folder as input' 2 $nothing "$read_failure" "$program" <"$folder"
expect 'a folder as input, command' 2 $nothing "$read_failure" "$keep" - <"$folder"
expect 'a folder as file, command' 2 $nothing "$failure" "$keep" "$folder"
expect 'no such file, command' 2 $nothing "$failure" "$keep" "$folder/none"
expect 'output to a full device' 2 $nothing "$write_failure" to_full "$program" <"$graph"
expect 'output to a full device, command' 2 $nothing "$failure" to_full "$keep" "$graph"
expect 'standard input closed' 2 $nothing "$read_failure" from_closed "$program"
expect 'standard input closed, command' 2 $nothing "$failure" from_closed "$keep" -
expect 'standard output closed' 2 $nothing "$write_failure" to_closed "$program" <"$graph"
expect 'standard output closed, command' 2 $nothing "$failure" to_closed "$keep" "$graph"
expect 'no reader' 2 $nothing "$write_failure" to_no_reader "$program" <"$graph"
expect 'no reader, command' 2 $nothing "$failure" to_no_reader "$keep" "$graph"
if python3 -c 'import pty; pty.openpty()' 2>/dev/null; then
    expect 'the end of input at a terminal' 0 "$folder/empty.listing" "$quiet" from_terminal "$program"
    expect 'the end of input at a terminal, command' 1 "$folder/empty.listing" "$quiet" from_terminal "$keep" -
else
    printf 'no terminal is to be had here: two tries are left out\n'
fi
KEEP_PROGRAM=$(type -P true)
expect 'a program that prints nothing, command' 2 $nothing "$failure" "$keep" "$graph"
KEEP_PROGRAM=$(type -P false)
expect 'a program that fails, command' 2 $nothing "$failure" "$keep" "$graph"

if [[ ${#differ[@]} -gt 0 ]]; then
    printf '%s tries of the program, %s not as expected\n' "$tried" "${#differ[@]}"
    exit 1
fi
printf '%s tries of the program, all as expected\n' "$tried"
