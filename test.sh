#!/usr/bin/env bash
# Proves and tests everything: every crate, its layout and its programs, the edits that must be refused, the outside vectors, the archive for the host
# program, and on it the Rust tests, which compare it with an independent model and with other makers' discs.
# The last line is 'N passed, 0 failed'; where something fails it is named above, and the exit status is 1. Each part says how many seconds it took.
set -u
cd "$(dirname "$0")" || exit 2
. host/setup.sh || exit 2

proved_with="rattle-kit-13f logic dac8208d650f15bf"

passed=0
failed=0
broken=()

# one NAME COMMAND...: one test, passed if the command succeeds
one() {
    local name=$1 began=$SECONDS
    shift
    if "$@"; then
        passed=$((passed + 1))
    else
        failed=$((failed + 1))
        broken+=("$name")
    fi
    echo "part $name: $((SECONDS - began)) s"
}

# What the tests need. None of them is left out where a tool is missing: it fails.
set_up() {
    need_kit
    need python3 python3
    need perl perl
    need c++ g++
    need mkudffs udftools
    need strace strace
    need script bsdutils
    need_rust host/Cargo.toml
}

# counted NAME LEAST COMMAND...: many tests, counted by the lines 'N passed, M failed' and cargo's 'N passed; M failed' of the command's output.
# LEAST is how many there are in the sources: a runner that passes fewer, or none, has failed, also if only its words have changed.
# Only what the runners say of themselves is printed, and the whole end of the output where something fails.
counted() {
    local name=$1 least=$2 began=$SECONDS log good bad
    shift 2
    log=$(mktemp)
    "$@" >"$log" 2>&1
    local status=$?
    grep -E '^(rt|edit|test result)[: ]' "$log"
    good=$(grep -oE '[0-9]+ passed[,;]' "$log" | awk '{ n += $1 } END { print n + 0 }')
    bad=$(grep -oE '[0-9]+ failed' "$log" | awk '{ n += $1 } END { print n + 0 }')
    if [ "$status" -ne 0 ] && [ "$bad" -eq 0 ]; then
        bad=1
    fi
    if [ "$bad" -ne 0 ]; then
        grep -E 'error|NOT PROVED|FAILED' "$log" | head -n 40
        tail -n 40 "$log"
    fi
    if [ "$good" -eq 0 ] || [ $((good + bad)) -lt "$least" ]; then
        echo "$name: $good tests passed, and there are $least"
        bad=$((bad + 1))
    fi
    if [ "$bad" -ne 0 ]; then
        broken+=("$name")
    fi
    passed=$((passed + good))
    failed=$((failed + bad))
    rm -f "$log"
    echo "part $name: $((SECONDS - began)) s"
}

# in_background FILE COMMAND...: starts the command, which writes to the file and leaves its exit status in FILE.status. The shell's own word for how a
# child ended is lost once another child has its number.
in_background() {
    local file=$1
    shift
    { "$@" >"$file" 2>&1; echo $? >"$file.status"; } &
}

# told_by FILE: what the command has written to the file, once all that was started so has ended, and its exit status
told_by() {
    wait
    cat "$1"
    return "$(cat "$1.status")"
}

# The gate of rt, as it stands. An edit that cannot be tried shows nothing, and rt ci passes all the same: here it fails.
rattle_gate() {
    local said status
    said=$(mktemp)
    rt ci 2>&1 | tee "$said"
    status=${PIPESTATUS[0]}
    if grep -E '^rt: ok' "$said" | grep -qE ', [0-9]+ bad'; then
        echo "1 failed: an edit is bad"
        status=1
    fi
    rm -f "$said"
    return "$status"
}

# A crate that is proved is one, and each of its must-fail edits.
rattle_tests() {
    { grep -E '^[a-z]' crates.txt; find crates -path '*/must-fail/*.edit'; } | wc -l
}

must_fail_tests() {
    find crates/*/must-fail tests/must-fail -name '*.edit' | wc -l
}

# Functions marked as tests, and examples in the documentation, each between two fences.
host_tests_written() {
    local functions fences
    functions=$(grep -rE '^ *#\[test\]' host/src host/tests host/cli | wc -l)
    fences=$(grep -rE '^ *//[/!] ```' host/src | wc -l)
    echo $((functions + fences / 2))
}

# Wrong copies, each with its label.
wrong_statements() {
    cat tests/statements_edits.py tests/lock_edits.py | grep -cE '^ +"[a-z_0-9]+": \('
}

outside_vectors() {
    local told
    told=$(python3 tests/vectors.py) && [ -n "$told" ] && echo "$told" | cmp - crates/vectors/stdout
}

# The archive that the host program links: proved, with nothing that is only assumed, and with the functions of the header alone.
archive() {
    local told
    told=$(cd crates/station && rt lib --cpu x86-64 2>&1) || { echo "$told" | tail -n 20; return 1; }
    python3 tests/statements.py --archive "$told" crates/station/out/libstation.a
}

# The proved listing program, as the host tests run it.
listing_program() {
    (cd crates/list && rt run <stdin >/dev/null)
}

# Without --release, which would leave out the checks that the profile for tests has.
host_tests() {
    cargo test --no-fail-fast "${cargo_options[@]}" --manifest-path host/Cargo.toml -p station -p station-cli
}

set_up
echo "kit: $(rt version) (last proved with $proved_with)"
one "tests/vectors.py" outside_vectors
one "tests/statements.py" python3 tests/statements.py
counted "tests/statements_edits.py" "$(wrong_statements)" python3 tests/statements_edits.py
counted "rt ci" "$(rattle_tests)" rattle_gate
# The edits beside the archive and what is run on it: each leaves a processor idle now and then.
edits=$(mktemp)
in_background "$edits" tests/must_fail.sh
one "rt lib, in crates/station" archive
one "rt run, in crates/list" listing_program
counted "host tests" "$(host_tests_written)" host_tests
counted "tests/must_fail.sh" "$(must_fail_tests)" told_by "$edits"
rm -f "$edits" "$edits.status"

for name in "${broken[@]}"; do
    echo "failed: $name"
done
echo "$passed passed, $failed failed"
[ "$passed" -gt 0 ] && [ "$failed" -eq 0 ]
