#!/bin/sh
# Runs the program on the words given, and builds it first where it is missing or out of date.
# FILE is found from where the user stands, so the working folder stays as it is.
set -u

self=$0
while [ -L "$self" ]; do
    link=$(readlink -- "$self") || exit 1
    case $link in
        /*) self=$link ;;
        *) self=$(dirname -- "$self")/$link ;;
    esac
done
root=$(CDPATH='' cd -- "$(dirname -- "$self")" && pwd -P) || exit 1
program=$root/crates/wesl/out/wesl
begun=$root/target/wesl-build-begun

# What rt keeps beside the sources, in folders named out, is no source.
newer_sources() {
    find "$root/crates" -mindepth 2 -name out -prune -o -newer "$program" -print
    find "$root/crates.txt" -newer "$program"
}

out_of_date() {
    [ ! -x "$program" ] || [ -n "$(newer_sources)" ]
}

# rt links a program only to run it, so it is run once, for its help. It takes standard input from nowhere: that may be
# the list to name.
build() {
    mkdir -p -- "$root/target" && : >"$begun" && cd -- "$root/crates/wesl" && rt run -- help </dev/null 2>&1
}

if out_of_date; then
    echo "wesl: building the program with 'rt run', which can take minutes" >&2
    if ! log=$(build); then
        printf '%s\n' "$log" >&2
        echo "wesl: the build failed" >&2
        exit 1
    fi
    # rt leaves a program that has not changed as it was. It is as new as the sources were when the
    # build began, and a file that was edited since is newer.
    touch -r "$begun" -- "$program"
fi

exec "$program" "$@"
