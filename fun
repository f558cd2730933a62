#!/bin/sh
# fun: runs the program of crates/fun. `./fun build` proves and builds it; until then the same text is run without its proof.
# The words are handed on as they are, so files are looked for where the caller stands.
here=$0
while [ -L "$here" ]; do
    link=$(readlink "$here")
    case $link in
    /*) here=$link ;;
    *) here=$(dirname "$here")/$link ;;
    esac
done
root=$(cd "$(dirname "$here")" && pwd -P) || exit 1
crate=$root/crates/fun
program=$crate/out/fun

need_toolchain() {
    command -v rt >/dev/null 2>&1 && return
    echo "error: \`rt\`, the Rattle toolchain's command, is not on the PATH" >&2
    echo "  = help: install the toolchain, or add its bin folder to the PATH: README.md, \"What it needs\"" >&2
    exit 1
}

# proves and builds the program, and tells how far it is
build() {
    need_toolchain
    log=$(mktemp) || exit 1
    status=$(mktemp) || exit 1
    echo "fun: proving and building the program; the first time this takes some 20 minutes on two processors" >&2
    { (cd "$crate" && rt run -- --version) 2>&1; echo $? >"$status"; } | tee "$log" |
        sed -n -u 's/^checked \([a-z_]*\)::.*, \([0-9]*\) of \([0-9]*\)$/  \1: \2 of \3 functions/p; s/^rt: \([a-z_]*\) proved.*/  \1: proved/p' >&2
    if [ "$(cat "$status")" != 0 ] || [ ! -x "$program" ]; then
        tail -n 20 "$log" >&2
        echo "error: the program could not be built; the whole report is in $log" >&2
        rm -f "$status"
        exit 1
    fi
    rm -f "$log" "$status"
    # a source that the program does not use leaves it as it was: it is not asked about again
    touch "$program"
    echo "fun: built" >&2
}

# the first source that is newer than the program; nothing where all are older
newer_source() {
    find "$root/crates.txt" "$root/crates" -name out -prune -o \
        -type f \( -name '*.rt' -o -name '*.antt' -o -name crates.txt \) -newer "$program" -print 2>/dev/null | head -n 1
}

# the help, which the check compares with what the program prints
if [ $# -eq 0 ] || { [ $# -eq 1 ] && { [ "$1" = help ] || [ "$1" = --help ] || [ "$1" = -h ]; }; }; then
    exec cat "$crate/stdout"
fi

# what a refusal means, as it stands in the program's text
if [ "$1" = explain ] && [ $# -eq 2 ]; then
    text=$(awk -v number="$2" '$0 ~ "^" number ": " { told = 1 } /^";$/ { told = 0 } told' \
        "$crate/src/explain.rt" "$crate/src/accept_explained.rt" 2>/dev/null)
    [ -n "$text" ] && case $2 in *[!0-9]*) ;; *) printf '%s\n' "$text"; exit 0 ;; esac
fi

if [ "$1" = build ] && [ $# -eq 1 ]; then
    build
    exit 0
fi

if [ -x "$program" ]; then
    [ -t 2 ] && [ -n "$(newer_source)" ] && echo "note: sources are newer than the program: ./fun build makes it anew" >&2
    exec "$program" "$@"
fi

# The program before its proof. It runs in a folder of its own, so the files that the words name are lent to it.
need_toolchain
echo "note: not proved yet: running the program's text, which takes most of a minute; ./fun build proves and builds it" >&2
for word in "$@"; do
    case $word in
    -o* | --out | --out=*)
        echo "error: a file is written by the built program only: ./fun build" >&2
        exit 2
        ;;
    esac
done
told=$(mktemp) || exit 1
trap 'rm -f "$told"' EXIT
lent=
for word in "$@"; do
    if [ -f "$word" ]; then
        case $word in
        *[!A-Za-z0-9_./-]*) echo "error: before the build, files have names of letters, digits and . _ - / only: $word" >&2; exit 1 ;;
        esac
        case $word in
        /*) ;;
        *) lent="$lent --data $word=$(pwd -P)/$word" ;;
        esac
    fi
done
# shellcheck disable=SC2086
(cd "$crate" && rt try $lent -- "$@") 2>"$told"
grep -v -E '^(checked: |run=|rt: )' "$told" >&2
ended=$(sed -n 's/^checked: ended status=\([0-9]*\)$/\1/p' "$told" | tail -n 1)
exit "${ended:-1}"
