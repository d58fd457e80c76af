# shellcheck shell=sh disable=SC2154
# A project in a folder of its own with the real commands, a toolchain that only puts stand-ins in the programs' place, and a machine that runs them.

# make_project FOLDER PROGRAMS: FOLDER/project and FOLDER/bin, which belongs in front of the PATH; the stand-ins `desk` and `clerk` are in PROGRAMS.
make_project() {
    for crate in desk clerk exports; do
        mkdir -p "$1/project/crates/$crate/src" "$1/project/crates/$crate/must-fail"
        echo '// The code.' >"$1/project/crates/$crate/src/main.rt"
    done
    mkdir -p "$1/bin" "$1/programs"
    (cd "$tests/.." && cp -R desk clerk archive programs.sh crates.txt examples "$1/project/") || exit 2
    cp "$2/desk" "$2/clerk" "$1/programs/" || exit 2
    cp "$tests/rt" "$1/bin/rt"
    printf '#!/bin/sh\necho x86_64\n' >"$1/bin/uname"
    chmod +x "$1/bin/rt" "$1/bin/uname"
}

# enter_project PROGRAMS: makes one in `room`, and commands are tried there.
enter_project() {
    programs=$(cd "$1" && pwd -P) || exit 2
    make_project "$room" "$programs"
    place=$room/project
    PATH=$room/bin:$PATH
    export PATH
    cd "$place" || exit 2
}
