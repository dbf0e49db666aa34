#!/usr/bin/env bash
# An index of `archive` saved and restored: what `list` prints becomes lines `add`, as docs/PROGRAMS.md says, and an empty archive that is given these
# lists the same bytes; for both owners together and for each. `tools/prove archive` builds the program.
set -u
cd "$(dirname "$0")/.."
work=$(mktemp -d)
trap 'rm -rf "$work"' EXIT
failed=0

# The line of docs/PROGRAMS.md.
adds() { awk -v RS='|' 'NF == 6 { print "add", $3, $2, $4, $5, $6 }' "$1"; }
grep -qF "awk -v RS='|' 'NF == 6 { print \"add\", \$3, \$2, \$4, \$5, \$6 }'" docs/PROGRAMS.md || { echo 'docs/PROGRAMS.md has another line'; failed=1; }

# restored LABEL LISTED SAVED ..: an archive that is given what the files SAVED have lists what LISTED has.
restored() {
    for saved in "${@:3}"; do adds "$saved"; done > "$work/lines"
    (cat "$work/lines"; echo list) | target/bin/archive > "$work/out" 2>&1
    grep -cvx ok "$work/out" | grep -qx 1 && tail -n 1 "$work/out" | cmp -s - "$2" && return
    echo "$1: the restored archive lists something else"
    failed=1
}

# The stored histories up to places where both owners have many entries; the last time the index is full.
for most in 3000 18000 21000; do
    (grep -a '^add [01] \|^remove [01] ' crates/archive/stdin | head -n $most; echo list; echo list 0; echo list 1) | target/bin/archive | tail -n 3 > "$work/day"
    sed -n 1p "$work/day" > "$work/both"
    sed -n 2p "$work/day" > "$work/0"
    sed -n 3p "$work/day" > "$work/1"
    entries=$(tr -cd '|' < "$work/both" | wc -c)
    [ "$entries" -gt 1000 ] || { echo "after $most calls there are only $entries entries"; failed=1; }
    restored "$most calls, both owners" "$work/both" "$work/both"
    restored "$most calls, one owner after the other" "$work/both" "$work/1" "$work/0"
    restored "$most calls, owner 0" "$work/0" "$work/0"
    restored "$most calls, owner 1" "$work/1" "$work/1"
done
echo - > "$work/none"
restored 'an empty index' "$work/none" "$work/none"
[ $failed -eq 0 ] && echo 'restore: an archive that is given what was listed lists the same bytes'
exit $failed
