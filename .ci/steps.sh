# shellcheck shell=bash
# What the gate does, as functions; .ci/run says in which order.
passed=0
failed=0

# step WORDS COMMAND..: one more that passed or failed.
step() {
    echo "== $1"
    if "${@:2}"; then
        passed=$((passed + 1))
    else
        failed=$((failed + 1))
        echo "FAILED: $1"
    fi
}

# The last line, and the end. A gate in which nothing passed fails.
finish() {
    echo "$passed passed, $failed failed"
    exit $((failed > 0 || passed == 0))
}

# Ends at once where something failed.
finish_early() {
    ((failed == 0)) || finish
}

# within FOLDER COMMAND..: the command in that folder.
within() {
    (cd "$1" && "${@:2}")
}

# cargo_tests FOLDER WORD..: cargo's tests there. None at all is a failure.
cargo_tests() {
    local said
    said=$(mktemp) || return
    within "$1" cargo test --quiet --locked --offline "${@:2}" | tee "$said"
    local status=${PIPESTATUS[0]}
    ((status == 0)) && grep -q '^test result: ok\. [1-9]' "$said"
    status=$?
    rm -f "$said"
    return "$status"
}

# rt ci counts by itself; its last line is not shown, so that the gate's own is the last. Nothing proved is a failure.
proofs() {
    local said status last fine
    said=$(mktemp) || exit
    rt ci | tee "$said" | sed '$d'
    status=${PIPESTATUS[0]}
    last=$(tail -n 1 "$said")
    fine=$(grep '^rt: ok\b' "$said" | tail -n 1)
    rm -f "$said"
    if [[ $last =~ ^([0-9]+)\ passed,\ ([0-9]+)\ failed$ ]]; then
        passed=$((passed + BASH_REMATCH[1]))
        failed=$((failed + BASH_REMATCH[2]))
        if ((BASH_REMATCH[1] > 0 && (status == 0 || BASH_REMATCH[2] > 0))); then
            ((BASH_REMATCH[2] > 0)) || edits "$fine"
            return
        fi
    fi
    failed=$((failed + 1))
    echo "FAILED: rt ci ended with status $status and '$last'"
}

# edits LINE: rt ci passes where must-fail edits could not be tried, and counts them in its line `rt: ok` alone. Here each is
# a failure, and so is a line that counts no edit.
edits() {
    if [[ ! $1 =~ \;\ must-fail\ edits:\ ([1-9][0-9]*)\ refused(, [0-9]+ of them only by a limit)?(, ([0-9]+) bad)?\; ]]; then
        failed=$((failed + 1))
        echo "FAILED: rt ci tells no edits that it refused: '$1'"
    elif ((BASH_REMATCH[4] > 0)); then
        failed=$((failed + BASH_REMATCH[4]))
        echo "FAILED: must-fail edits that could not be tried: ${BASH_REMATCH[4]}"
    fi
}

# The archive has x86-64 code. On another processor target/bridge has one with the same functions in its place, which
# hands each call to that code under the kit's emulator; where the bridge can't be built, that is a failure.
# A call takes about half a millisecond there, so there are fewer cases. From 20,000 on, compare asks that every number
# of every paper was met: the cases of the fixed seed are so many, those of the fresh one may be fewer.
fixed_cases=50000
fresh_cases=50000
archive=target/staticlib/libreambodkin.a
archive_words=()
bridge() {
    second/bridge/build || return
    archive=target/bridge/libreambodkin.a
    archive_words=(-lpthread)
    export REAMBODKIN_LIB=$PWD/target/bridge
    fixed_cases=20000
    fresh_cases=5000
}

# A seed that no run before had; it is printed, so that a run can be repeated.
fresh_seed() {
    od -An -N4 -tu4 /dev/urandom | tr -d ' '
}

# compare SEED COUNT: so many cases from this seed.
compare() {
    within second cargo run --quiet --locked --offline --release --features desk --bin compare -- "$1" "$2"
}

# What needs no proof and no archive. The programs are not built yet: the commands are tried with stand-ins.
before_proofs() {
    local programs=second/target/release
    step 'the papers that are made' tools/papers --check
    step "the papers' own check" tests/papers
    step 'layout of rust/' within rust cargo fmt --check
    step 'layout of second/' within second cargo fmt --check
    step 'the house' tools/house imports laws edges sizes paths statements
    step "the house's own check" tests/house
    step 'tests of second/' cargo_tests second --release
    step 'tests of rust/ without the archive' cargo_tests rust --no-default-features
    step 'stand-ins for the programs' within second cargo build --quiet --locked --offline --release --bin desk --bin clerk
    finish_early
    step 'the commands' tests/commands "$programs"
    step 'their refusals' tests/refusals "$programs"
    step 'the examples of docs/SHEET.md' tests/page "$programs"
    step 'the gate itself' tests/gate
}

# The programs, put where the commands look for them by the commands themselves: each says so once, on standard error.
programs() {
    ./desk examples/parcel.sheet examples/parcel.card examples/looked-900.event >/dev/null && ./clerk check examples/parcel.sheet >/dev/null
}

# What needs the archive or the programs.
behind_proofs() {
    step 'the archive' ./archive
    [[ $(uname -m) == x86_64 ]] || step 'the bridge to the archive' bridge
    finish_early
    local seed
    seed=$(fresh_seed)
    step 'comparison with the second implementation, seed 1' compare 1 "$fixed_cases"
    step "comparison with the second implementation, fresh seed $seed" compare "$seed" "$fresh_cases"
    step 'tests of rust/ with the archive' cargo_tests rust --release --features desk
    step 'the library from C' tests/c "$archive" "${archive_words[@]}"
    step 'the programs' programs
    step 'the commands with the real programs' tests/real
    step 'the examples of docs/SHEET.md with the real programs' tests/page
}
