# shellcheck shell=sh disable=SC2154
# What ./desk, ./clerk and ./archive share. Each sets `here`, the folder of the project, and `name`, its own name.
# They end with status 0 where the papers are taken, 1 where they are refused, and 2 with a message where anything else is wrong.
program=$here/target/bin/$name
# One byte more than the programs take, so that a longer input is still told as LONG.
most=34305
# How a file of the project is named from here, and whether refusals are told in words.
beside=$here/
[ "$(pwd -P)" != "$here" ] || beside=
verbose=no
[ ! -t 2 ] || verbose=yes

# say WORDS: a message on standard error.
say() {
    printf '%s: %s\n' "$name" "$*" >&2
}

# stop WORDS: a message, and the end.
stop() {
    say "$@"
    exit 2
}

# ARGUMENTS

# options WORD: sees to the first argument where it is an option; `given` is then 1, otherwise 0. The command has `usage`.
# shellcheck disable=SC2034
options() {
    given=1
    case $1 in
    -h | --help)
        usage
        exit 0
        ;;
    -v) verbose=yes ;;
    -*) stop "there is no option '$1'; '$0 --help' says what there is" ;;
    *) given=0 ;;
    esac
}

# The part of the usage that both commands have.
told_options() {
    cat <<'END'
-v     on standard error, a refusal in words with the file, its line and what stands there; at a terminal this is always told
-h     this text, also --help

Status 0: taken. 1: refused. 2: something else went wrong, and standard error says what.
END
}

# Every file can be read.
readable() {
    for file; do
        [ -e "$file" ] || stop "there is no file '$file'"
        [ ! -d "$file" ] || stop "'$file' is a directory"
        [ -r "$file" ] || stop "cannot read '$file'"
    done
}

# THE PROGRAM

# What changed since. Edits that must fail and what rt keeps beside the code are no part of it.
newer() {
    find "$here/crates.txt" "$here/crates" \( -path '*/must-fail' -o -path '*/out' \) -prune -o -type f -newer "$program" -print
}

# All that rt says goes to standard output, and its own lines that have news to standard error too. Ends with the status in the line
# that follows where rt failed.
progress() {
    ended=0
    while IFS= read -r said; do
        case $said in
        'rt failed '*) ended=${said##* } ;;
        *) printf '%s\n' "$said" ;;
        esac
        case $said in
        'rt: nothing has changed'* | 'rt: running '* | *': begins with what a check kept in '*) ;;
        rt:*) printf '%s\n' "$said" >&2 ;;
        esac
    done
    return "$ended"
}

# What the checker said of the first crate that is not proved, without what it says of every crate. Where there is none, all that was said behind the last one that is.
first_failure() {
    awk '
        /^logic=not-proved/ { exit }
        /^logic=proved/ { text = ""; next }
        /^(logic|statements|library|crate|axioms|rt: running) / || /^only=/ || /^[a-z]+ [^ ]*::.*: proved$/ { next }
        { text = text $0 "\n" }
        END { printf "%s", text }' "$1" | tail -n 40
}

# prove CRATE WORD: rt with this word, in the crate's folder. What it and the checker say is kept in a log; where that is a failure, it is shown.
prove() {
    log=$here/target/$name.log
    command -v rt >/dev/null || stop "there is no 'rt' on the PATH: the Rattle toolchain is needed to prove and build"
    (mkdir -p "$here/target" && : >"$log") || stop "cannot write $log"
    if ! { (cd "$here/crates/$1" && rt "$2") </dev/null 2>&1 || printf '\nrt failed %s\n' "$?"; } | progress >"$log"; then
        say "'rt $2' in crates/$1 failed. What the checker said:"
        first_failure "$log" >&2
        stop "all of it is in $log"
    fi
}

# Where the program is not built yet or something has changed, it is proved and built first: rt builds it beside its code and runs it once, on nothing.
# The copy gets its name when it is whole.
build() {
    if [ ! -x "$program" ] || [ -n "$(newer)" ]; then
        say 'proving and building the program; from nothing this takes some minutes'
        built=$here/crates/$name/out/$name
        prove "$name" run
        [ -x "$built" ] || stop "'rt run' made no $built"
        (mkdir -p "$here/target/bin" && cp -- "$built" "$program.new" && mv -- "$program.new" "$program") || stop "cannot write $program"
        touch -- "$program"
    fi
}

# The program is x86-64 code. On another processor the kit's emulator runs it; `tools` has that, the loader and the C library.
find_tools() {
    tools=
    machine=$(uname -m)
    [ "$machine" != x86_64 ] || return 0
    guide=$(rt doc) || stop "the program is x86-64 code, and there is no 'rt' that would know an emulator for $machine"
    tools=${guide%/*}/on/$machine/toolchain
    [ -x "$tools/bin/qemu-x86_64" ] || stop "the program is x86-64 code, and the kit has no emulator for $machine, $tools/bin/qemu-x86_64"
}

start() {
    if [ -z "$tools" ]; then
        "$program" "$@"
    else
        "$tools/bin/qemu-x86_64" "$tools/lib/ld-linux-x86-64.so.2" --library-path "$tools/lib" "$program" "$@"
    fi
}

# THE PAPERS

# A folder for what is read, gone at the end.
make_room() {
    room=
    trap '[ -z "$room" ] || rm -rf -- "$room"' EXIT
    trap 'exit 129' HUP
    trap 'exit 130' INT
    trap 'exit 141' PIPE
    trap 'exit 143' TERM
    room=$(mktemp -d "${TMPDIR:-/tmp}/reambodkin.XXXXXX") || stop "cannot make a folder in ${TMPDIR:-/tmp}"
}

# keep NUMBER NAME: standard input as the file with this number. No more of it is read than the program would.
keep() {
    head -c "$most" >"$room/$1" || stop "cannot read $2, or cannot keep it in $room"
}

# The files as they are read, once: each as a file with its number.
keep_all() {
    number=0
    for file; do
        number=$((number + 1))
        # shellcheck disable=SC2094
        keep "$number" "$file" <"$file"
    done
}

# What the program with these words prints is in `output`; it goes to memory and not to a file, since the program does not tell where it can't write.
run() {
    output=$(cat "$room"/[123] | { start "$@" && echo ' 0' || echo " $?"; })
    ended=${output##* }
    output=${output% *}
    [ "$ended" = 0 ] || stop "the program ended with status $ended and gave no answer"
}

# The output goes to standard output. A reader that has gone does no harm.
hand_on() {
    (exec 3>&1) 2>/dev/null || stop 'cannot write the answer: standard output is closed'
    { said=$(printf '%s' "$output" 2>/dev/null | LC_ALL=C cat 2>&1 >&3) && sent=0 || sent=$?; } 3>&1
    case $sent:$said in
    0:* | 141:* | *'Broken pipe'*) ;;
    *) stop "cannot write the answer: $said" ;;
    esac
}

# answer WORD FILE..: what the program prints with this word, if it is not empty, for the files one after another; with no file, for standard input.
answer() {
    word=$1
    shift
    readable "$@"
    build
    find_tools
    make_room
    if [ $# -eq 0 ]; then
        [ ! -t 0 ] || say 'reading from the terminal; Ctrl-D at the start of a line ends it'
        set -- 'standard input'
        keep 1 "$1"
    else
        keep_all "$@"
    fi
    run ${word:+"$word"}
    hand_on
    conclude "$@"
}

# REFUSALS

# conclude FILE..: the end. A status may have the name `refused`, so a number is looked for.
conclude() {
    case $output in
    refused=[0-9]*)
        refusal=${output#refused=}
        refusal=${refusal%%[!0-9 ]*}
        [ "$verbose" = no ] || tell "$@"
        remark "$@"
        exit 1
        ;;
    'outlook=refused
')
        [ "$verbose" = no ] || say "$(words 10)"
        exit 1
        ;;
    case=*'
outlook=refused
')
        [ "$verbose" = no ] || say "there is no outlook: $(words 10)"
        ;;
    esac
    exit 0
}

# words NUMBER: the refusal's, as README.md has them.
# shellcheck disable=SC2016
words() {
    case $1 in
    1) echo 'LONG, sheet over 32,768 bytes, card over 1,024, event over 512' ;;
    2) echo 'LINE, key, mark, word or end of line not as due; a line missing or too many; `end` not the true count' ;;
    3) echo 'NAME, malformed, reserved, already used, unknown, of the wrong kind, or not the one due' ;;
    4) echo 'NUMBER, malformed or out of range' ;;
    5) echo 'COND, in a condition: operator, parenthesis or joining word not as due; nesting 9' ;;
    6) echo 'FULL, the first line or leaf over a limit' ;;
    7) echo "CYCLE, the sheet's rules depend on each other in a circle" ;;
    8) echo 'ORPHAN, a stage is yes under a parent that is no' ;;
    9) echo 'ROOM, the result is longer than the space lent' ;;
    10) echo 'MANY, the missing answers split into more than 4,096 combinations' ;;
    esac
}

# nth N FILE..: the file with this number.
nth() {
    shift "$1"
    printf '%s' "$1"
}

# The kept files with nothing in them that a terminal would obey; `counts` has how many lines of each end in LF.
make_plain() {
    counts=
    for kept in "$room"/[123]; do
        LC_ALL=C cat -vt "$kept" >"$kept.plain" || stop "cannot write in $room"
        counts="$counts $(wc -l <"$kept")"
    done
}

# locate PAPER LINE: `FILE LINE TEXT`, the number of the file in which that line of the paper begins, its line there and what stands there; `FILE LINE` where
# the paper ends above it; nothing where the paper is empty. Line 0 stands for the first. The papers are parted as the program does it: each ends with the
# first line that begins `end=`, with `alone` there is only one. A line goes on in the next file where a file does not end in LF.
locate() {
    LC_ALL=C awk -v paper="$1" -v line="$2" -v counts="$counts" -v alone="$alone" '
        function ended() {
            at++
            open = 0
            if (now == paper) behind = file " " (from + 1)
            if (now == paper && (at == line || line == 0) && !found)
                found = file " " from " " substr(text, 1, 100) (length(text) > 100 ? " .." : "")
            if (!alone && now < 3 && text ~ /^end=/) { now++; at = 0 }
        }
        BEGIN { split(counts, lines, " "); now = 1 }
        { number = substr(FILENAME, length(FILENAME) - length(".plain"), 1) }
        !open { file = number; from = FNR; text = "" }
        { text = text $0; open = 1 }
        FNR <= lines[number] { ended() }
        END { if (open) ended(); print found ? found : behind }' "$room"/[123].plain
}

# tell FILE..: the refusal in words, with the file, its line and what stands there.
tell() {
    # shellcheck disable=SC2086
    set -- $refusal "$@"
    number=$1 paper=$2 line=$3
    shift 3
    if [ "$paper" = 0 ]; then
        say "all papers together: $(words "$number"); together 34,304"
        return
    fi
    alone=
    case $word in check | blank) alone=yes ;; esac
    make_plain
    found=$(locate "$paper" "$line")
    say "$(place "$@"): $(words "$number")$(shown)$(advice "$@")"
}

# place FILE..: where it is. The line is that of the file; where the paper counts otherwise, its own is told too.
place() {
    case $paper in
    1) called=sheet ;;
    2) called=card ;;
    *) called=event ;;
    esac
    if [ -z "$found" ]; then
        printf 'the %s, line %s' "$called" "$line"
        return
    fi
    nth "${found%% *}" "$@"
    [ "$line" != 0 ] || return 0
    there=${found#* }
    there=${there%% *}
    printf ', line %s' "$there"
    [ "$there" = "$line" ] || printf ' (line %s of the %s)' "$line" "$called"
}

# What stands in the line, if there is one.
shown() {
    case $line:$found in
    0:*) ;;
    *:*' '*' '*)
        text=${found#* * }
        printf '%s' "${text:+: }${text:-, and it is empty}"
        ;;
    *) printf '; there is no such line' ;;
    esac
}

# advice FILE..: who tells more of a circle. With one file for all papers, check can't read it.
advice() {
    [ "$number" = 7 ] && [ "$word" != check ] || return 0
    sheet=SHEET
    if [ $# -gt 1 ] || [ -n "$alone" ] && [ "$1" != 'standard input' ]; then sheet=$1; fi
    printf "; '%sclerk check %s' shows one" "${beside:-./}" "$sheet"
}

# odd FILE: what an editor or another system may have left in a file and nobody sees. Of a longer file than is kept the end is not known.
odd() {
    whole=$(($(wc -c <"$1") < most))
    LC_ALL=C tr '\000' '\001' <"$1" | LC_ALL=C awk -v ended="$(wc -l <"$1")" -v whole="$whole" '
        NR == 1 && /^\357\273\277/ { print "it begins with a byte order mark" }
        NR == 1 && /^(\377\376|\376\377)/ { print "it is UTF-16 text, and papers are ASCII" }
        /\r$/ && !carriage { carriage = NR }
        /^\r?$/ && !empty { empty = NR }
        / \r?$/ && !space { space = NR }
        END {
            if (carriage) print "line " carriage " has a CR before its LF"
            if (empty) print (empty == NR ? "it ends in an empty line, line " empty : "line " empty " is empty")
            if (space) print "line " space " ends in a space"
            if (whole + 0 && NR > ended + 0) print "its last line does not end in LF"
            if (NR == 0) print "it is empty"
        }'
}

# remark FILE..: what is odd in each of the files.
remark() {
    number=0
    for file; do
        number=$((number + 1))
        odd "$room/$number" | while IFS= read -r remark; do say "$file: $remark"; done
    done
}
