#!/usr/bin/env bash
# The built library bindings/lib/libhost.a is there so that the bindings can be used without the Rattle toolchain. It has to be what the
# proved crates give.
#
#     tools/built_library.sh --check     after `rt lib` in crates/host_c: fails unless it is the library that was just built
#     tools/built_library.sh --write     after `rt lib` in crates/host_c: takes over the library that was just built
#
# bindings/lib/KIT names the toolchain that built it. Another one may compile differently: then nothing is compared, and it is said so.
set -euo pipefail
cd "$(dirname "$(readlink -f "${BASH_SOURCE[0]}")")/.."
built=crates/host_c/out/libhost_c.a
kept=bindings/lib/libhost.a
kit=bindings/lib/KIT

case ${1-} in
--write)
    cp "$built" "$kept"
    rt version >"$kit"
    ;;
--check)
    if [[ $(rt version) != "$(<"$kit")" ]]; then
        printf '%s was built by another toolchain (%s): not compared\n' "$kept" "$(<"$kit")"
    elif cmp "$built" "$kept"; then
        printf '%s is the library that was just built\n' "$kept"
    else
        printf '%s is not what the crates give: tools/built_library.sh --write\n' "$kept" >&2
        exit 1
    fi
    ;;
*)
    printf 'usage: tools/built_library.sh --check | --write\n' >&2
    exit 2
    ;;
esac
