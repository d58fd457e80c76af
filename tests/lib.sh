# shellcheck shell=sh
# What the shell tests share: a command is tried, and each thing that is asked of it counts as one that passed or failed.
passed=0
failed=0
room=$(mktemp -d) || exit 2
trap 'rm -rf -- "$room"' EXIT
trap 'exit 130' INT
trap 'exit 141' PIPE
trap 'exit 143' TERM
# Another user has to get through in one of the tests.
chmod 755 "$room"
# The folder in which commands are tried.
place=$room

# try WORDS COMMAND: runs the command in `place`; its output, its messages and its status are then asked about.
try() {
    label=$1
    (cd "$place" && sh -c "$2") >"$room/out" 2>"$room/err" </dev/null && status=0 || status=$?
}

# at_terminal COMMAND: the command that runs this one at a terminal, both outputs together.
at_terminal() {
    if command -v script >/dev/null; then
        printf "script -qec '%s' /dev/null </dev/null" "$1"
    else
        printf "python3 -c 'import os, pty, sys; sys.exit(os.waitstatus_to_exitcode(pty.spawn([\"sh\", \"-c\", sys.argv[1]])))' '%s' </dev/null" "$1"
    fi
}

# count WORDS CONDITION..: one that passed where the condition holds, otherwise one that failed, with what was seen.
count() {
    asked=$1
    shift
    if "$@"; then
        passed=$((passed + 1))
        return
    fi
    failed=$((failed + 1))
    printf 'FAILED: %s: %s\n  status %s\n' "$label" "$asked" "$status"
    sed 's/^/  | /' "$room/out"
    sed 's/^/  ! /' "$room/err"
}

is() { [ "$1" = "$2" ]; }
holds() { grep -qF -e "$2" "$1"; }
lacks() { ! grep -qF -e "$2" "$1"; }
same() { printf '%s' "$1" | cmp -s - "$2"; }

ends() { count "ends with status $1" is "$status" "$1"; }
prints() { count "prints '$1'" same "$1" "$room/out"; }
print_has() { count "has '$1' on standard output" holds "$room/out" "$1"; }
tells() { count "tells '$1'" holds "$room/err" "$1"; }
tells_not() { count "does not tell '$1'" lacks "$room/err" "$1"; }
# All that is told.
said() {
    count "tells '$1' alone" same "$1
" "$room/err"
}
is_silent() { count 'has nothing on standard error' same '' "$room/err"; }

# The last line; fails where something did, and where nothing was asked.
summary() {
    echo "$passed passed, $failed failed"
    [ "$failed" -eq 0 ] && [ "$passed" -gt 0 ]
}
