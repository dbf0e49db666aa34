#!/usr/bin/env bash
# make install and make uninstall, tried in a temporary directory: every file, the visible symbols, hosts in C and C++, the programs, the manual, the Python
# module. tests/install.sh ARCHIVE PROGRAMS; `make install-test` calls it. A line for each part, and one for each that was skipped.
set -u
cd "$(dirname "$0")/.."
given=(LIB="$1" BIN="$2")
work=$(mktemp -d)
trap 'rm -rf "$work"' EXIT
prefix="$work/a prefix"
failed=0
parts=0
has() { command -v "$1" > /dev/null; }
wrong() { echo "wrong: $*"; failed=$((failed + 1)); }
# good TEXT: said where nothing was wrong since it was called last.
good() { [ $failed -ne $parts ] || echo "install: $*"; parts=$failed; }
same() { diff "$1" "$2" > "$work/diff" || { wrong "$3:"; cat "$work/diff"; }; }
skipped() { echo "skipped: $*"; }
number() { sed -n "s/^#define HTM_VERSION_$1 //p" include/htm.h; }
major=$(number MAJOR)
minor=$major.$(number MINOR)
version=$minor.$(number PATCH)

# ---- files
make -s install "${given[@]}" DESTDIR="$work/dest" PREFIX=/opt/htm > "$work/out" 2>&1 || { cat "$work/out"; exit 1; }
for _ in 1 2; do # the second time over the first
    make -s install "${given[@]}" PREFIX="$prefix" > "$work/out" 2>&1 || { cat "$work/out"; exit 1; }
done
make -s install "${given[@]}" DESTDIR="$work/" PREFIX=relative > "$work/out" 2>&1 && wrong 'a relative PREFIX is accepted'
[ -e "$work/relative" ] && wrong 'a relative PREFIX is written to'

# declared HEADER: the functions that it declares, by the compiler.
declared() { cc -E -P "$1" | tr '\n' ' ' | tr ';{}' '\n\n\n' | grep -v __ | sed -n 's/^.*[ *]\([a-z_0-9]*\) *(.*/\1/p' | sort; }
declared include/htm.h > "$work/htm.calls"
sed 's/"htm.h"/<stdint.h>/' hosts/sky/htm_sky.h > "$work/sky.h"
declared "$work/sky.h" > "$work/htm_sky.calls"

{
    printf 'bin/htm-%s\n' archive catalogue cover query
    printf 'include/%s\n' htm.h htm_sky.h
    for name in libhtm libhtm_sky; do printf "lib/$name.%s\n" a so "so.$major" "so.$minor"; done
    printf 'lib/pkgconfig/%s.pc\n' htm htm_sky
    printf 'share/man/man1/htm-%s.1\n' archive catalogue cover query
    echo share/htm/htmsky.py
    { cat "$work/htm.calls" "$work/htm_sky.calls"; printf '%s\n' htm htm_cover htm_frames htm_index htm_lookup htm_name htm_region htm_sky htm_trial sky_arrays \
        sky_pieces sky_pointing sky_region; } | sort -u | sed 's|.*|share/man/man3/&.3|'
} | sort > "$work/expected"
files() { (cd "$1" && find . ! -type d | sed 's|^\./||' | sort); }
files "$prefix" > "$work/there"
same "$work/expected" "$work/there" 'not the files that are expected'
files "$work/dest/opt/htm" > "$work/there"
same "$work/expected" "$work/there" 'not the files that are expected below DESTDIR'
files "$work/dest" | grep -v '^opt/htm/' && wrong 'files beside PREFIX'
[ -z "$(find "$prefix" ! -type l ! -perm -444)" ] || wrong 'a file that not everybody can read'
grep -q '^prefix=/opt/htm$' "$work/dest/opt/htm/lib/pkgconfig/htm.pc" || wrong 'DESTDIR is in htm.pc, or PREFIX is not'
for name in libhtm libhtm_sky; do
    [ "$(readlink "$prefix/lib/$name.so") $(readlink "$prefix/lib/$name.so.$major")" = "$name.so.$major $name.so.$minor" ] || wrong "the links of $name"
done
good "$(wc -l < "$work/expected") files, below PREFIX and below DESTDIR"

# ---- symbols
if has nm && has readelf && has size; then
    for name in htm htm_sky; do
        so="$prefix/lib/lib$name.so.$minor"
        nm -D --defined-only "$so" | awk '$2 != "A" { sub(/@.*/, "", $3); print $3 }' | sort > "$work/visible"
        same "$work/$name.calls" "$work/visible" "lib$name.so does not show the calls of $name.h only"
        readelf -dW "$so" | grep -q "soname: \[lib$name.so.$major\]" || wrong "the soname of lib$name"
        readelf -lW "$so" | grep -q 'GNU_STACK.*RWE' && wrong "lib$name wants to execute its stack"
    done
    nm -D --undefined-only "$prefix/lib/libhtm.so" | awk '$1 == "U" { sub(/@.*/, "", $2); print $2 }' | sort | tr '\n' ' ' > "$work/needed"
    [ "$(cat "$work/needed")" = 'memcpy memset ' ] || wrong "libhtm.so needs $(cat "$work/needed")"
    [ "$(size "$prefix/lib/libhtm.a" | awk 'NR > 1 { print $2 + $3 }')" = 0 ] || wrong 'libhtm.a has global state: data that is written'
    readelf -dW "$prefix/lib/libhtm_sky.so" | grep -q "NEEDED.*\[libhtm.so.$major\]" || wrong "libhtm_sky.so does not name libhtm.so.$major"
    good "visible are the $(wc -l < "$work/htm.calls") calls of htm.h and the $(wc -l < "$work/htm_sky.calls") of htm_sky.h, and nothing else"
else
    skipped 'visible symbols: nm, readelf or size is missing (Debian: apt-get install binutils)'
fi

# ---- hosts
cat > "$work/sky.c" <<'END'
#include <stdio.h>
#include <htm_sky.h>
int main(void)
{
    static struct sky_piece pieces[SKY_PIECES];
    uint8_t file[HTM_FILE_BYTES];
    int32_t p[3];
    double ra[] = {83.63, 90}, dec[] = {-5.01, 0};
    int64_t ids[2];
    size_t length = (size_t)sky_cone(83.82, -5.39, 1, SKY_CHOOSE_DEPTH, SKY_BUDGET, file, sizeof file);
    int64_t answer = sky_pointing(90, 0, p);
    printf("%d %d\n", (int)answer, p[1]);
    answer = sky_lookup_all(ra, dec, 2, 12, ids);
    printf("%d %d %d\n", (int)answer, (int)sky_lookup(0, 90, 12), ids[0] == sky_lookup(83.63, -5.01, 12));
    printf("%d\n", sky_pieces(file, length, pieces, SKY_PIECES) > 0);
    sky_pointing(83.63, -5.01, p);
    printf("%d\n", (int)htm_holds(file, length, p[0], p[1], p[2]));
    printf("%s\n", sky_message(sky_lookup(400, 0, 12)));
    return 0;
}
END
printf '%s\n' '0 1048576' '0 63963136 1' 1 1 'the right ascension is not a number from -360 to 360' > "$work/sky.expected"
# A function of the host's own that has the name of a call, in a file that does not know of it.
echo 'int lookup(void); int lookup(void) { return 42; }' > "$work/own.c"

if has pkg-config; then
    export PKG_CONFIG_PATH="$prefix/lib/pkgconfig"
    [ "$(pkg-config --modversion htm htm_sky | tr '\n' ' ')" = "$version $version " ] || wrong 'the version of the pkg-config files'
    # The prefix has a blank, which pkg-config escapes for a shell.
    eval "htm_flags=($(pkg-config --cflags --libs htm)) sky_flags=($(pkg-config --cflags --libs htm_sky)) cflags=($(pkg-config --cflags htm))"
else
    skipped 'the pkg-config files: pkg-config is missing (Debian: apt-get install pkg-config)'
    cflags=(-I"$prefix/include")
    htm_flags=("${cflags[@]}" -L"$prefix/lib" -lhtm) sky_flags=("${cflags[@]}" -L"$prefix/lib" -lhtm_sky -lhtm)
fi
strict=(-Wall -Wextra -Werror -pedantic)
# host LABEL EXPECTED COMMAND ..: builds a host and compares what it prints.
host() {
    if "${@:3}" -o "$work/host" > "$work/out" 2>&1; then
        LD_LIBRARY_PATH="$prefix/lib" "$work/host" > "$work/out" 2>&1
        same "$2" "$work/out" "$1: another answer"
    else
        wrong "$1: not built"
        cat "$work/out"
    fi
    hosts=$((hosts + 1))
}
hosts=0
lib="$prefix/lib"
host 'C, shared' examples/host.expected cc -std=c11 "${strict[@]}" examples/host.c "${htm_flags[@]}"
! has readelf || readelf -dW "$work/host" | grep -q "NEEDED.*libhtm.so.$major" || wrong 'the host does not ask for libhtm.so'
host 'C, static' examples/host.expected cc -std=c11 "${strict[@]}" "${cflags[@]}" examples/host.c "$lib/libhtm.a"
host 'C99, shared' examples/host.expected cc -std=c99 "${strict[@]}" examples/host.c "${htm_flags[@]}"
host 'C99, static' examples/host.expected cc -std=c99 "${strict[@]}" "${cflags[@]}" examples/host.c "$lib/libhtm.a"
host 'C, degrees, shared' "$work/sky.expected" cc -std=c11 "${strict[@]}" "$work/sky.c" "${sky_flags[@]}"
host 'C, degrees, static' "$work/sky.expected" cc -std=c11 "${strict[@]}" "${cflags[@]}" "$work/sky.c" "$lib/libhtm_sky.a" "$lib/libhtm.a" -lm
host 'C, degrees, beside a lookup of its own' "$work/sky.expected" cc -std=c11 "${strict[@]}" "$work/sky.c" "$work/own.c" "${sky_flags[@]}"
if has c++; then
    host 'C++, shared' examples/host.expected c++ -std=c++11 "${strict[@]}" -x c++ examples/host.c -x none "${htm_flags[@]}"
    host 'C++, static' examples/host.expected c++ -std=c++11 "${strict[@]}" "${cflags[@]}" -x c++ examples/host.c -x none "$lib/libhtm.a"
    host 'C++, degrees, shared' "$work/sky.expected" c++ -std=c++11 "${strict[@]}" -x c++ "$work/sky.c" -x none "${sky_flags[@]}"
    host 'C++, degrees, static' "$work/sky.expected" c++ -std=c++11 "${strict[@]}" "${cflags[@]}" -x c++ "$work/sky.c" -x none "$lib/libhtm_sky.a" "$lib/libhtm.a" -lm
else
    skipped 'hosts in C++: c++ is missing (Debian: apt-get install g++)'
fi
good "$hosts hosts are built without a warning and print what they shall"

# ---- programs
for p in cover catalogue query archive; do
    args=$([ ! -f crates/$p/args ] || cat crates/$p/args)
    "$prefix/bin/htm-$p" $args < crates/$p/stdin > "$work/out" 2>&1
    cmp -s "$work/out" crates/$p/stdout || wrong "htm-$p does not print crates/$p/stdout"
done
good 'the four programs print their stored outputs'

# ---- the manual
pages=$(files "$prefix/share/man")
if has man; then
    for page in $pages; do
        name=${page#*/}
        MANPATH="$prefix/share/man" LC_ALL=C.UTF-8 man --warnings "${page:3:1}" "${name%.?}" > "$work/out" 2> "$work/err" || wrong "man finds no $page"
        [ -s "$work/err" ] && { wrong "$page:"; cat "$work/err"; }
        col -b < "$work/out" | grep -q "^NAME" && col -b < "$work/out" | sed -n '/^NAME/,/^SYNOPSIS/p' | grep -qw -- "${name%.?}" || wrong "$page does not name ${name%.?}"
    done
    good "$(wc -w <<< "$pages") manual pages, each found by its name and formatted without a warning"
else
    skipped 'finding the manual pages: man is missing (Debian: apt-get install man-db)'
fi
if has groff; then
    for page in $pages; do
        (cd "$prefix/share/man" && groff -man -ww -z -Tutf8 -I . "$page") > "$work/out" 2>&1
        [ -s "$work/out" ] && { wrong "$page:"; cat "$work/out"; }
    done
else
    skipped 'groff on the manual pages: groff is missing (Debian: apt-get install groff-base)'
fi
# The examples of the programs' pages: a line '$ COMMAND', then what it prints.
if has xxd; then
    for page in "$prefix"/share/man/man1/*; do
        sed -n '/^\.SH EXAMPLES/,/^\.SH SEE/{/^    /{s/^    //;s/\\e/\\/g;s/\\-/-/g;s/\\(aq/'"'"'/g;p}}' "$page" > "$work/example"
        grep -v '^\$ ' "$work/example" > "$work/said"
        sed -n 's/^\$ //p' "$work/example" > "$work/commands"
        [ -s "$work/commands" ] || wrong "${page##*/} has no example"
        (cd "$work" && PATH="$prefix/bin:$PATH" bash ./commands) > "$work/out" 2>&1
        same "$work/said" "$work/out" "the example of ${page##*/}"
    done
    good 'the examples of the programs'\'' pages print what they say'
else
    skipped 'the examples of the manual: xxd is missing (Debian: apt-get install xxd)'
fi

# ---- Python
if has python3; then
    [ "$(cd "$work" && env -u HTM_LIBRARY_PATH PYTHONPATH="$prefix/share/htm" python3 -B -c 'import htmsky; print(htmsky.lookup_degrees(0, 90))' 2>&1)" = 63963136 ] ||
        wrong 'the Python module does not find the libraries'
    good 'the Python module finds the libraries from where it is installed'
else
    skipped 'the Python module: python3 is missing'
fi

# ---- and away
echo foreign > "$prefix/lib/libhtm.so.0" && echo foreign > "$prefix/share/man/man3/other.3"
make -s uninstall "${given[@]}" DESTDIR="$work/dest" PREFIX=/opt/htm > "$work/out" 2>&1 || { wrong 'uninstall:'; cat "$work/out"; }
make -s uninstall "${given[@]}" PREFIX="$prefix" > "$work/out" 2>&1 || { wrong 'uninstall:'; cat "$work/out"; }
files "$work/dest" > "$work/there"
[ -s "$work/there" ] && { wrong 'uninstall leaves:'; cat "$work/there"; }
[ "$(files "$prefix" | tr '\n' ' ')" = 'lib/libhtm.so.0 share/man/man3/other.3 ' ] || wrong 'uninstall leaves files, or takes those of others'
good 'uninstall leaves no file, and keeps those of others'
[ $failed -eq 0 ]
