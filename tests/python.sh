#!/usr/bin/env bash
# The Python module's tests by each interpreter, without numpy and, where it has numpy, with it.
# tests/python.sh LIBRARIES [INTERPRETER ..]; without interpreters every python3 and python3.N on the path that is 3.9 or later. `make python` calls it.
set -u
HTM_LIBRARY_PATH=$(cd "$1" && pwd) || exit 1
export HTM_LIBRARY_PATH
shift
cd "$(dirname "$0")/.."
work=$(mktemp -d)
trap 'rm -rf "$work"' EXIT
failed=0
ran=0

if [ $# -eq 0 ]; then
    IFS=: read -ra folders <<< "$PATH"
    for folder in "${folders[@]}"; do
        for python in "$folder"/python3 "$folder"/python3.[0-9] "$folder"/python3.[0-9][0-9]; do
            [ -x "$python" ] && set -- "$@" "$python"
        done
    done
fi

# about INTERPRETER: its version, where it lives, and numpy's version or none; nothing where it does not start or is too old.
about() {
    "$1" -c 'import sys
assert sys.version_info >= (3, 9)
try:
    import numpy
except ImportError:
    numpy = None
print("%d.%d.%d" % sys.version_info[:3], sys.prefix, numpy.__version__ if numpy else "none")' 2> /dev/null
}

# run WHAT INTERPRETER [NAME=VALUE]
run() {
    if env "${@:3}" "$2" -B hosts/python/test_htmsky.py > "$work/out" 2>&1; then
        echo "$1: $(sed -n -e 's/^Ran \([0-9]* tests\) .*/\1/p' -e 's/^OK (skipped=\(.*\))/\1 skipped/p' "$work/out" | paste -sd, | sed 's/,/, /'), no failure"
        ran=$((ran + 1))
    else
        echo "$1: FAILED"
        cat "$work/out"
        failed=1
    fi
}

seen=' '
for python in "$@"; do
    found=$(about "$python") || continue
    read -r version prefix numpy <<< "$found"
    case $seen in *" $version,$prefix "*) continue ;; esac
    seen="$seen$version,$prefix "
    run "python $version without numpy" "$python" HTMSKY_NUMPY=no
    if [ "$numpy" = none ]; then
        echo "skipped: python $version with numpy: it has none (Debian's own python3: apt-get install python3-numpy)"
    else
        run "python $version with numpy $numpy" "$python"
    fi
done
[ $((ran + failed)) -gt 0 ] || echo 'skipped: the Python module: there is no python3 of 3.9 or later'
exit $failed
