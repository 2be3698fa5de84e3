#!/usr/bin/env bash
# terminals/run.sh FOLDER: builds the two terminals against what 'bin/ship FOLDER' put there, as they are and with broken tables,
# compares transcript and exit status, lends empty tables, and measures the stack that the calls take. Its last line is 'N passed, M
# failed'.
set -u
if [ $# -ne 1 ]; then
    echo "usage: terminals/run.sh FOLDER" >&2
    exit 2
fi
folder=$(cd "$1" && pwd) || exit 2
here=$(cd "$(dirname "${BASH_SOURCE[0]}")" && pwd) || exit 2
made=$(mktemp -d) || exit 2
trap 'rm -rf -- "$made"' EXIT

passed=0
failed=0

check() { # NAME COMMAND..
    local name=$1
    shift
    if "$@"; then
        passed=$((passed + 1))
    else
        failed=$((failed + 1))
        echo "failed: $name"
    fi
}

compile() { # SOURCE PROGRAM [OPTION..]
    gcc -std=c99 -Wall -Wextra -Werror -pedantic -O2 "${@:3}" -I "$folder" "$1" "$folder/libborder.a" -pthread -o "$2"
}

compile_rust() { # CRATE PROGRAM
    BORDER_LIB=$folder cargo build --quiet --offline --manifest-path "$1/Cargo.toml" --target-dir "$1/target" &&
        cp "$1/target/debug/yard" "$2"
}

# Both terminals, built from sources edited by sed. An edit that finds nothing to change shows in the transcript.
edit() { # NAME EDIT
    local to=$made/edited-$1
    mkdir -p "$to/src" &&
        sed "$2" "$here/c/yard.c" >"$to/yard.c" &&
        sed "$2" "$here/rust/src/main.rs" >"$to/src/main.rs" &&
        sed "s|\.\./\.\./wrapper|$here/../wrapper|" "$here/rust/Cargo.toml" >"$to/Cargo.toml" &&
        compile "$to/yard.c" "$made/c-$1" &&
        compile_rust "$to" "$made/rust-$1"
}

# A program writes the transcript that is wanted, and ends with that status.
tells() { # PROGRAM TRANSCRIPT STATUS
    local status=0
    "$made/$1" >"$made/told" || status=$?
    diff "$here/$2.want" "$made/told" || return 1
    [ "$status" -eq "$3" ] || { echo "exit status $status, wanted $3"; return 1; }
}

# half takes the last number from the rules, spoilt sets a fact to 2: the terminal must stop there.
check "both terminals are built with half a policy" edit half '/WIPE_CHECK, 2, 2/s/ 0,$//'
check "both terminals are built with a spoilt state" edit spoilt '/fresh(/a state[0] = 2;'
check "the terminal in C is built" compile "$here/c/yard.c" "$made/c-yard"
check "the terminal in Rust is built" compile_rust "$here/rust" "$made/rust-yard"
for terminal in c rust; do
    check "$terminal: a day in the yard" tells "$terminal-yard" yard 0
    check "$terminal: stops at half a policy" tells "$terminal-half" half 1
    check "$terminal: stops at a spoilt state" tells "$terminal-spoilt" spoilt 1
done
for level in -O0 -O2; do
    check "the empty tables are built, $level" compile "$here/c/empty.c" "$made/empty$level" "$level"
    check "empty tables with any pointer, $level" "$made/empty$level"
done
check "the measure of the stack is built" compile "$here/c/stack.c" "$made/stack"
check "the stack that the calls take" "$made/stack"
echo "$passed passed, $failed failed"
[ "$failed" -eq 0 ]
