#!/usr/bin/env bash
# The programs cover, query, catalogue and archive where standard input or output fails, is closed, is interrupted or moves a few bytes only; and
# catalogue where its argument is wrong.
# `tools/prove cover query catalogue archive` builds them; the case of interrupted calls needs cc, and programs that this machine runs itself.
set -u
cd "$(dirname "$0")/.."
work=$(mktemp -d)
trap 'rm -rf "$work"' EXIT
failed=0

# said PROGRAM TEXT: what was written is the beginning of the stored output, and standard error says TEXT.
said() {
    if ! head -c "$(wc -c < "$work/out")" "crates/$1/stdout" | cmp -s - "$work/out" || [ "$(cat "$work/err")" != "$2" ]; then
        echo "$1: not as stored, or not '$2':"
        cat "$work/err"
        failed=1
    fi
}

for p in cover query catalogue archive; do
    in=crates/$p/stdin
    args=$([ ! -f crates/$p/args ] || cat crates/$p/args)
    : > "$work/out"
    target/bin/$p $args < $in 2> "$work/err" > /dev/full
    said $p 'standard output is cut short: No space left on device'
    target/bin/$p $args < $in 2> "$work/err" >&-
    said $p 'standard output is cut short: Bad file descriptor'
    target/bin/$p $args < / 2> "$work/err" > "$work/out"
    said $p 'standard input is not read to its end: Is a directory'
    target/bin/$p $args <&- 2> "$work/err" > "$work/out"
    said $p 'standard input is not read to its end: Bad file descriptor'
    if [ -s "$work/out" ]; then
        echo "$p: an answer to nothing"
        failed=1
    fi
    target/bin/$p $args < $in 2> "$work/err" > "$work/out"
    said $p ''
    if command -v cc > /dev/null && [ "$(uname -m)" = x86_64 ]; then
        cc -shared -fPIC -o "$work/interrupted.so" tests/c/interrupted.c
        LD_PRELOAD=$work/interrupted.so target/bin/$p $args < $in 2> "$work/err" > "$work/out"
        said $p ''
        cmp "$work/out" crates/$p/stdout || failed=1
    fi
done

# Without a DEPTH, with one that is no number from 1 to 12, or with a word after it, `catalogue` prints how it is called and reads nothing.
for args in '' x '12 12' 4294967296 0 13 -1 12x; do
    target/bin/catalogue $args < / 2> "$work/err" > "$work/out"
    if [ "$(cat "$work/out")" != 'usage: catalogue DEPTH < LINES' ] || [ -s "$work/err" ]; then
        echo "catalogue $args: no usage line"
        failed=1
    fi
done
target/bin/catalogue '' < / 2> "$work/err" > "$work/out"
[ "$(cat "$work/out")" = 'usage: catalogue DEPTH < LINES' ] || { echo 'catalogue: no usage line for an empty word'; failed=1; }

# A file that may not grow past 8 blocks of 1024 bytes takes a part of a write, and then nothing.
(trap '' XFSZ; ulimit -f 8; target/bin/query < crates/query/stdin 2> "$work/err" > "$work/out")
said query 'standard output is cut short: File too large'
(trap '' PIPE; target/bin/query < crates/query/stdin 2> "$work/err" | head -c 10 > "$work/out")
said query 'standard output is cut short: Broken pipe'
[ $failed -eq 0 ] && echo 'streams: failures are said, and nothing stands after a lost part'
exit $failed
