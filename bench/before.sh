#!/usr/bin/env bash
# bench/before.sh SHIPPED FOLDER: of the archive that an earlier state shipped into SHIPPED, a copy in FOLDER that can be linked beside
# today's: its ten calls are named before_* there.
set -eu
if [ $# -ne 2 ]; then
    echo "usage: bench/before.sh SHIPPED FOLDER" >&2
    exit 2
fi
mkdir -p -- "$2"
names=$(mktemp)
trap 'rm -f -- "$names"' EXIT
nm --defined-only --extern-only "$1/libborder.a" | sed -n 's/.* T adobethrum_\(.*\)$/adobethrum_\1 before_\1/p' >"$names"
if [ "$(wc -l <"$names")" -ne 10 ]; then
    echo "before: $1/libborder.a has not the ten calls of a border" >&2
    exit 1
fi
objcopy --redefine-syms="$names" "$1/libborder.a" "$2/libbefore.a"
