#!/bin/sh
# Hostile input on the exports and on the host program, under valgrind and with the sanitizers. `make hostile` builds
# the programs and runs this in the top folder.
set -u

answers=build/hostile_answers
errors=build/hostile_errors
runs=0

# A sanitizer's report ends a program with 99, and not with the usual 1, which is also the status of a refused line.
export ASAN_OPTIONS=exitcode=99 UBSAN_OPTIONS=exitcode=99 LSAN_OPTIONS=exitcode=99

fail() {
    echo "hostile: $*" >&2
    exit 1
}

# noise KIND BYTES: puts its file's name in $input.
noise() {
    input=build/noise_$1_$2
    ./build/noise "$1" "$2" 1 > "$input" || fail "no noise was made: $1 $2"
    [ "$(wc -c < "$input")" -eq "$2" ] || fail "the noise hasn't $2 bytes: $1"
}

# How many lines $input has. The last may lack its newline.
lines() {
    count=$(wc -l < "$input")
    last=$(tail -c 1 "$input" | od -An -tx1 | tr -d ' ')
    [ -z "$last" ] || [ "$last" = 0a ] || count=$((count + 1))
    echo "$count"
}

# host COMMAND...: the host program on $input, where some line is refused if there is any. It answers each line by one,
# and writes its summary and nothing else on standard error.
host() {
    expected=1
    [ -s "$input" ] || expected=0
    "$@" < "$input" > $answers 2> $errors
    status=$?
    if grep -q -e Sanitizer -e 'runtime error' -e '^==' $errors; then
        cat $errors >&2
        fail "a report on standard error: $* < $input"
    fi
    [ $status -eq $expected ] || fail "the status is $status, not $expected: $* < $input"
    [ "$(wc -l < $errors)" -eq 1 ] || fail "standard error isn't one line: $* < $input"
    [ "$(wc -l < $answers)" -eq "$(lines)" ] || fail "the lines aren't answered by one each: $* < $input"
    runs=$((runs + 1))
}

# both COMMAND...: in plain text and in JSON.
both() {
    host "$@"
    host "$@" --json
}

# commands COMMAND...: every command of the host program.
commands() {
    both "$@" encode
    both "$@" read
    both "$@" repair
    both "$@" telemetry
    both "$@" telemetry --write
}

# on "KIND..." BYTES COMMAND...: every command on these kinds of noise.
on() {
    kinds=$1
    bytes=$2
    shift 2
    for kind in $kinds; do
        noise $kind "$bytes"
        commands "$@"
    done
}

command -v valgrind > /dev/null || fail "valgrind is needed, and isn't installed"

echo 'The exports under valgrind:'
valgrind --error-exitcode=1 --leak-check=full -q ./build/hostile 2000 || fail 'the exports under valgrind'
echo 'The exports with the sanitizers:'
./build/hostile_sanitized 60000 || fail 'the exports with the sanitizers'

on bytes 0 ./build/wsprcard_sanitized
on 'bytes digits line nuls fields' 1000000 ./build/wsprcard_sanitized
noise digits 30000
both ./build/wsprcard_sanitized repair --limit 12 --budget 65536
echo "The host program with the sanitizers: $runs runs"

runs=0
on 'bytes digits fields' 10000 valgrind --error-exitcode=99 --leak-check=full -q ./build/wsprcard
echo "The host program under valgrind: $runs runs"
