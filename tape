#!/bin/sh
# A program on standard input: proves and builds what it rests on, where that has changed, and runs it. Which one, its own name says:
# dick, or record, replay or tape, which are copies of it. It needs the toolchain's `rt` on the path.
set -u

# The folder of a file, behind any links to it.
folder_of() {
    file=$1
    while [ -L "$file" ]; do
        link=$(readlink "$file")
        case $link in /*) file=$link ;; *) file=$(dirname "$file")/$link ;; esac
    done
    (cd "$(dirname "$file")" && pwd -P)
}

name=$(basename "$0")
case $name in
dick | record | replay) crate=$name ;;
tape) crate=tape_program ;; # the crate `tape` is the library
*)
    echo "$name: the programs are dick, record, replay and tape" >&2
    exit 2
    ;;
esac
root=$(folder_of "$0")
log=$root/target/$name.log
rt=$(command -v rt) || {
    echo "$name: there is no rt on the path: the Rattle toolchain is needed" >&2
    exit 2
}
mkdir -p "$root/target" && cd "$root/crates/$crate" || exit 2

# rt builds a program where it runs it, here on an empty input. The log is kept whole; a crate that is checked is a line on standard error.
status=$({ { "$rt" run </dev/null 2>&1; echo $? >&3; } | tee "$log" | sed -n 's/^rt: chose --jobs [0-9]* for \([a-z_]*\)$/checking \1/p' >&2; } 3>&1)
if [ "$status" != 0 ] || [ ! -x "out/$crate" ]; then
    echo "$name: it is not proved, or not built: $log says why" >&2
    exit 1
fi
exec "out/$crate"
