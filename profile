#!/bin/sh
# Prints the listing of the records in FILE, or of those on standard input. Builds the program first if need be.
#
#   ./profile [FILE]      status 0: a listing; 1: a refusal, the line `X n`, in words on standard error; 2: anything else failed
#   ./profile --build     builds only
set -u
here=$(dirname "$0")
program=$here/target/bin/profiler
log=$here/target/profiler.log
usage='usage: ./profile [FILE], or ./profile --build'

fail() {
    printf 'profile: %s\n' "$*" >&2
    exit 2
}

# One line on standard error: on a terminal in the place of the one before.
progress() {
    if [ -t 2 ]; then printf '\r%s\033[K' "$1" >&2; fi
}

# Counts the proved crates among the lines that rt prints: `crate NAME: ..`, then `logic=proved ..`.
follow() {
    proved=0 name=''
    while IFS= read -r line; do
        case $line in
        'crate '*': '*) name=${line#crate } ;;
        'logic=proved'*)
            proved=$((proved + 1))
            progress "$proved of $total crates proved, last: ${name%%:*}"
            ;;
        esac
    done
    progress ''
}

# Ctrl-C ends the provers too, which rt runs in the background.
interrupted() {
    if [ -t 2 ]; then echo >&2; fi
    trap '' TERM
    kill -TERM 0
    trap - INT
    kill -INT $$
}

build() {
    command -v rt >/dev/null 2>&1 || fail 'rt, the command of the kit of Rattle, is not on PATH'
    mkdir -p "$here/target" || fail 'target/ could not be made'
    # How many crates the program reaches.
    total=$(awk -F: 'function reach(name,    words, k, n) {
            if (name in reached || !(name in uses)) return
            reached[name]
            n = split(uses[name], words, " ")
            for (k = 1; k <= n; k++) reach(words[k])
        }
        { split($1, words, " "); uses[words[1]] = $2 }
        END { reach("profiler"); for (name in reached) total++; print total }' "$here/crates.txt")
    if [ -t 2 ]; then
        progress "0 of $total crates proved"
    else
        printf 'proving %s crates, log in target/profiler.log\n' "$total" >&2
    fi
    trap interrupted INT
    # `rt run` runs the program that it made: here on an empty input.
    status=$({ { (CDPATH='' cd -- "$here/crates/profiler" && exec rt run) </dev/null 2>&1 3>&-; echo $? >&3; } | tee "$log" | follow; } 3>&1 >&2)
    trap - INT
    if [ "$status" != 0 ]; then
        # A program that was linked all the same is not taken for built.
        [ ! -e "$program" ] || touch -t 197001020000 "$program"
        tail -n 20 "$log" >&2
        fail 'the program is not proved; the whole log is target/profiler.log'
    fi
    made=$here/crates/profiler/out/profiler
    [ -x "$made" ] || fail 'rt made no program; remove crates/profiler/out and try again'
    { mkdir -p "${program%/*}" && cp "$made" "$program" && touch "$program"; } || fail 'target/bin/profiler could not be made'
}

words() {
    sed -n "s/^$1 //p" "$here/bindings/refusals.txt"
}

[ $# -le 1 ] || fail "$usage"
file='' only=''
case ${1-} in
--build) only=yes ;;
--help) echo "$usage"; exit 0 ;;
-*) fail "$usage" ;;
*) file=${1-} ;;
esac
if [ $# -eq 1 ] && [ -z "$only" ]; then
    [ -e "$file" ] || fail "$file: no such file"
    [ -r "$file" ] || fail "$file: it may not be read"
fi
if [ ! -x "$program" ] || [ -n "$(find "$here/crates" "$here/crates.txt" -name out -prune -o -newer "$program" -print -quit)" ]; then
    build
fi
[ -z "$only" ] || exit 0

if [ -n "$file" ]; then
    listing=$("$program" <"$file")
else
    { true 3<&0; } 2>/dev/null || fail 'standard input is closed'
    listing=$("$program")
fi || fail 'the program did not end by itself'
# The program has said why.
[ -n "$listing" ] || exit 2
trap '' PIPE
printf '%s\n' "$listing" 2>/dev/null || fail 'the output could not be written whole'
case $listing in
'X '*)
    printf 'profile: refusal %s: %s\n' "${listing#X }" "$(words "${listing#X }")" >&2
    exit 1
    ;;
esac
