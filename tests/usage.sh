#!/usr/bin/env bash
# What the programs print of themselves: one line, on standard output for `--help`, on standard error for arguments that they do not take; nothing is read
# then. `catalogue` takes a DEPTH, and prints its line on standard output for every other call. `tools/prove cover query catalogue archive` builds them.
set -u
cd "$(dirname "$0")/.."
work=$(mktemp -d)
trap 'rm -rf "$work"' EXIT
failed=0
tried=0

# says OUT ERR PROGRAM ARGUMENT ..: what it writes, on standard input that cannot be read, and that it ends with 0.
says() {
    local out=$1 err=$2 status=0
    "target/bin/${@:3:1}" "${@:4}" < / > "$work/out" 2> "$work/err" || status=$?
    tried=$((tried + 1))
    printf '%s' "$out" | cmp -s - "$work/out" && printf '%s' "$err" | cmp -s - "$work/err" && [ $status -eq 0 ] && return
    echo "${*:3}: status $status, and another text:"
    cat "$work/out" "$work/err"
    failed=1
}

long=$(printf '%5000s' '' | tr ' ' x)
for call in 'cover < FILE' 'query < LINES' 'archive < LINES'; do
    p=${call%% *}
    usage="usage: $call"$'\n'
    says "$usage" '' $p --help
    says "$usage" '' $p --help 12
    for word in 12 -h --version --hel --helpx '' - "$long" "examples/example.region"; do
        says '' "$usage" $p "$word"
    done
    says '' "$usage" $p 12 --help
done
usage=$'usage: catalogue DEPTH < LINES\n'
says "$usage" '' catalogue
for word in --help -h '' x 0 13 -1 12x 4294967296 "$long"; do
    says "$usage" '' catalogue "$word"
done
says "$usage" '' catalogue 12 12
says "$usage" '' catalogue 12 --help
[ $failed -eq 0 ] && echo "usage: $tried calls print how the program is called, and read nothing"
exit $failed
