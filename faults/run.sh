#!/usr/bin/env bash
# run.sh [--list | --table] [NAME...]
#
# Builds the second implementation once for each fault of list/*.txt, or for each one named, and looks for the sessions that catch it.
# Where none does, the comparison (compare/) is built with the faulty implementation and must meet a mismatch with the engine in its
# random calls; the tests of the second implementation are run as well. One line for each fault says what caught it. A fault that
# neither a session nor a random run catches, or that cannot be put in place or built, has failed. The last line is
# `N passed, M failed` (passed: caught); the exit status is 0 only if none failed.
#
# BORDER_LIB is the folder of libborder.a, the engine's archive: bin/ship FOLDER makes it.
#
# --table writes docs/FAULTY-BUILDS.md as well, if every fault is caught. --list only says the names of the faults, in their order.
#
# Only copies in a temporary folder are changed. A session may take 20 seconds (LIMIT=n for n seconds). All of it is run with nice.

set -u

here=$(cd -- "$(dirname -- "${BASH_SOURCE[0]}")" && pwd) || exit 2
root=$(dirname -- "$here")
page=$root/docs/FAULTY-BUILDS.md
export LIMIT=${LIMIT:-20}

# A random run is one part in so many of the comparison's calls, with the seed that the comparison has by itself.
share=10

table=no
list=no
wanted=()
for argument in "$@"; do
    case $argument in
    --table) table=yes ;;
    --list) list=yes ;;
    -*) echo "usage: run.sh [--list | --table] [NAME...]" >&2 && exit 2 ;;
    *) wanted+=("$argument") ;;
    esac
done
if [ "$table" = yes ] && [ ${#wanted[@]} -gt 0 ]; then
    echo "run.sh: the page is written from all faults, so --table takes no names" >&2
    exit 2
fi

# --- The list: groups, names, rules, files, old and new are arrays with one entry for each fault.

groups=() names=() rules=() files=() old=() new=()

read_list() {
    local file line group number last=-1
    for file in "$here"/list/*.txt; do
        group='' number=0
        while IFS= read -r line; do
            number=$((number + 1))
            case $line in
            '' | '#'*) ;;
            '== '*) group=${line#== } ;;
            'fault '*)
                last=$((last + 1))
                groups[last]=$group names[last]=${line#fault } rules[last]='' files[last]='' old[last]='' new[last]=''
                ;;
            'rule '*) rules[last]=${line#rule } ;;
            'file '*) files[last]=${line#file } ;;
            '-'*) old[last]+=${line#-}$'\n' ;;
            '+'*) new[last]+=${line#+}$'\n' ;;
            ' '*) old[last]+=${line# }$'\n' new[last]+=${line# }$'\n' ;;
            *) echo "list/${file##*/}, line $number: $line" >&2 && return 1 ;;
            esac
        done <"$file" || return 1
    done
}

# Every name once, every fault complete; every wanted name known.
check_list() {
    local i name twice
    twice=$(printf '%s\n' "${names[@]}" | sort | uniq -d)
    [ -z "$twice" ] || { echo "list/: twice:" $twice >&2 && return 1; }
    for i in "${!names[@]}"; do
        if [ -z "${rules[i]}" ] || [ -z "${files[i]}" ] || [ -z "${old[i]}" ] || [ "${old[i]}" = "${new[i]}" ]; then
            echo "list/: ${names[i]} is not complete" >&2
            return 1
        fi
    done
    for name in ${wanted[@]+"${wanted[@]}"}; do
        is_one_of "$name" "${names[@]}" || { echo "run.sh: no fault $name" >&2 && return 1; }
    done
}

is_one_of() { # WORD WORD..
    local word=$1 other
    shift
    for other in "$@"; do
        [ "$word" != "$other" ] || return 0
    done
    return 1
}

read_list && check_list || exit 2
if [ "$list" = yes ]; then
    printf '%s\n' "${names[@]}"
    exit 0
fi

if [ ! -f "${BORDER_LIB:-}/libborder.a" ]; then
    echo "run.sh: BORDER_LIB is ${BORDER_LIB:-not set}: it must be the folder of libborder.a, the engine's archive" >&2
    echo "run.sh: bin/ship FOLDER makes it; then BORDER_LIB=FOLDER faults/run.sh" >&2
    exit 2
fi
BORDER_LIB=$(cd -- "$BORDER_LIB" && pwd) || exit 2
export BORDER_LIB
renice -n 10 -p $$ >/dev/null 2>&1

# --- One build. The target folder is shared, and the copy always has the same path: only what a fault changes is compiled again.

work=$(mktemp -d) || exit 2
trap 'rm -rf -- "$work"' EXIT
copy=$work/second
export CARGO_TARGET_DIR=$work/target CARGO_INCREMENTAL=1 CARGO_TERM_COLOR=never
export RUSTFLAGS='--cap-lints allow'
guard=()
if command -v timeout >/dev/null; then
    guard=(timeout 600)
fi

# The comparison stands beside the copy, which it names as ../second. The sources are always copied anew, so that they are newer than
# what was built from the fault before.
copy_unchanged() {
    if [ ! -d "$copy" ]; then
        mkdir -- "$copy" "$work/compare" || return 1
        cp -R -- "$root/second/tests" "$root"/second/Cargo.* "$copy/" || return 1
        cp -R -- "$root/compare/src" "$root"/compare/Cargo.* "$root/compare/build.rs" "$work/compare/" || return 1
    fi
    rm -rf -- "$copy/src" && cp -R -- "$root/second/src" "$copy/"
}

# Changes the copy; on failure says why in $found.
put_in_place() { # INDEX
    local file=$copy/src/${files[$1]} text before after
    if [ ! -f "$file" ]; then
        found="there is no file ${files[$1]}"
        return 1
    fi
    text=$'\n'$(<"$file")$'\n'
    before=${text%%$'\n'"${old[$1]}"*}
    if [ "$before" = "$text" ]; then
        found="the old lines do not occur in ${files[$1]}"
        return 1
    fi
    after=${text#*$'\n'"${old[$1]}"}
    if [[ $'\n'$after == *$'\n'"${old[$1]}"* ]]; then
        found="the old lines occur more than once in ${files[$1]}"
        return 1
    fi
    before+=$'\n'
    printf '%s' "${before#$'\n'}${new[$1]}$after" >"$file"
}

build() {
    cargo build --quiet --offline --release --bin second --manifest-path "$copy/Cargo.toml" >"$work/log" 2>&1
}

# Runs the sessions; those that fail are named in the file sessions.
run_sessions() {
    LC_ALL=C "$root/sessions/run.sh" "$CARGO_TARGET_DIR/release/second" >"$work/log"
    local status=$?
    sed -n 's/^\([^ :]*\): .*/\1/p' "$work/log" >"$work/sessions"
    return "$status"
}

# Runs the comparison's calls up to the first mismatch with the engine, whose line is in the file mismatch. Any other end is none.
run_random() {
    : >"$work/mismatch"
    cargo build --quiet --offline --release --manifest-path "$work/compare/Cargo.toml" >"$work/log" 2>&1 || return 2
    ${guard[@]+"${guard[@]}"} "$CARGO_TARGET_DIR/release/compare" --first --share "$share" >"$work/log" 2>&1
    local status=$?
    [ "$status" -ne 1 ] || sed -n 's/^FAILED //p' "$work/log" >"$work/mismatch"
    return "$status"
}

# Runs the tests; those that fail are named in the file tests, as FILE: TEST.
run_tests() {
    ${guard[@]+"${guard[@]}"} cargo test --offline --release --no-fail-fast --manifest-path "$copy/Cargo.toml" >"$work/log" 2>&1
    local status=$?
    sed -n -e 's/^ *Running [^ ]* *[^ ]*src\/\([a-z]*\)\.rs .*/#\1/p' -e 's/^ *Running tests\/\([a-z]*\)\.rs .*/#\1/p' \
        -e 's/^test \(.*\) \.\.\. FAILED$/\1/p' "$work/log" |
        awk '/^#/ { file = substr($0, 2); next } { print file ": " $0 }' | LC_ALL=C sort >"$work/tests"
    return "$status"
}

# The first three names of a file, and how many more there are.
some_of() { # FILE
    local count
    count=$(wc -l <"$1")
    head -n 3 -- "$1" | paste -sd, - | sed 's/,/, /g' | tr -d '\n'
    [ "$count" -le 3 ] || printf ' and %d more' $((count - 3))
}

counted() { # COUNT WORD
    if [ "$1" -eq 1 ]; then echo "1 $2"; else echo "$1 $2s"; fi
}

# --- The faults. try sets found to what caught the fault, or to why it failed.

by_sessions=0
by_random=0

try() { # INDEX
    copy_unchanged && put_in_place "$1" || return 1
    if ! build; then
        found="it does not compile: $(grep -m 1 '^error' "$work/log")"
        return 1
    fi
    run_sessions
    if [ -s "$work/sessions" ]; then
        found="$(counted "$(wc -l <"$work/sessions")" session): $(some_of "$work/sessions")"
        by_sessions=$((by_sessions + 1))
        return 0
    fi
    try_without_program
}

# What the program cannot show: the random run, and which tests see the fault too.
try_without_program() {
    run_random
    if [ -s "$work/mismatch" ]; then
        found="random run: $(<"$work/mismatch")"
        by_random=$((by_random + 1))
    else
        found="no session and no random run catches it: $(tail -n 1 "$work/log")"
    fi
    run_tests
    if [ -s "$work/tests" ]; then
        found+="; $(counted "$(wc -l <"$work/tests")" test): $(some_of "$work/tests")"
    fi
    [ -s "$work/mismatch" ]
}

# Without a fault every session, every random call and every test passes.
try_unchanged() {
    copy_unchanged || return 1
    if ! build; then
        cat -- "$work/log"
        return 1
    fi
    if ! run_sessions; then
        cat -- "$work/log"
        return 1
    fi
    echo "without a fault: $(tail -n 1 "$work/log") in the sessions"
    if ! run_random; then
        cat -- "$work/log"
        return 1
    fi
    seed=$(sed -n 's/^seed \([0-9]*\),.*/\1/p' "$work/log")
    random_calls=$(sed -n 's/^passed no mismatch in \([0-9]*\) calls$/\1/p' "$work/log")
    echo "without a fault: no mismatch in $random_calls random calls, seed $seed"
    if ! run_tests; then
        cat -- "$work/tests"
        return 1
    fi
    echo "without a fault: every test passes"
}

# --- The page.

# A line of the table: what a cell holds may not end the cell.
table_row() { # CELL..
    local cell row='|'
    for cell in "$@"; do
        row+=" ${cell//|/\\|} |"
    done
    echo "$row"
}

write_page() {
    local i group=''
    cat <<END
# Faulty builds

What would happen if a rule were broken? Each row below is a build of the second implementation (\`second/\`) with one change in one
place, and the rule that it breaks; \`faults/list/\` has the changed lines. Every such build is caught: $by_sessions of ${#names[@]} by a session
(\`sessions/\`), through the program alone, and $by_random by a random run (\`compare/\`), which gives the same calls to the build and to the
proved engine and stops where they differ. Those $by_random the program cannot show: it begins with a fresh state and tables of whole rows,
it has no chain query, and no answer tells where a certificate stands.

The quoted sentences are the outline's, where nothing else is said. Of the sessions that catch a build the first three are named. A
random run is one part in $share of the gate's comparison: $random_calls calls, seed $seed. Its row names the group and the call that differ,
and how; so the gate's comparison catches each of these builds too. Tests of the second implementation that fail as well are named, but
a build that only they catch counts as not caught.

\`BORDER_LIB=FOLDER faults/run.sh\` tries all of them, with the archive that \`bin/ship FOLDER\` makes; \`faults/run.sh NAME\` tries one, and
\`faults/run.sh --table\` writes this page, which took $((SECONDS / 60)) minutes beside other work.

One change is not in the list, because no answer shows it: a chain query that does not test for a role written twice. In a sound state
a chain never comes back to a role (\`never_twice\` in \`crates/query/proofs/Chaining.antt\`). A test of \`second/src/chain.rs\` has it.
END
    for i in "${!names[@]}"; do
        if [ "${groups[i]}" != "$group" ]; then
            group=${groups[i]}
            printf '\n## %s\n\n' "$group"
            table_row fault 'rule broken' 'caught by'
            echo '|---|---|---|'
        fi
        table_row "\`${names[i]}\`" "${rules[i]}" "${caught[i]}"
    done
}

if ! try_unchanged; then
    echo "the second implementation fails without any fault"
    echo "0 passed, 1 failed"
    exit 1
fi

passed=0
failed=0
caught=()
for i in "${!names[@]}"; do
    if [ ${#wanted[@]} -gt 0 ] && ! is_one_of "${names[i]}" "${wanted[@]}"; then
        continue
    fi
    found=''
    if try "$i"; then
        passed=$((passed + 1))
        caught[i]=$found
        echo "caught ${names[i]}: $found"
    else
        failed=$((failed + 1))
        echo "FAILED ${names[i]}: $found"
    fi
done

if [ "$table" = yes ]; then
    if [ "$failed" -eq 0 ]; then
        write_page >"$work/page" && cp -- "$work/page" "$page"
    else
        echo "docs/FAULTY-BUILDS.md is left as it was"
    fi
fi
echo "caught by a session $by_sessions, by a random run alone $by_random"
echo "$passed passed, $failed failed"
[ "$failed" -eq 0 ]
