#!/usr/bin/env bash
# The extension in private servers: 300,000 frames from degrees, in one table, by partitions, and spread over two more servers. Each shape of
# a search delivers for some forty regions what a test of every row delivers; with a wrong row it does not. `make postgres` runs this.
# It ends with 3 and one line where no server can be started. server.sh says what it needs.
set -euo pipefail
export LC_ALL=C
source "$(dirname "$0")/server.sh"
here=$top/hosts/postgres/test
one=5432 south=5433 north=5434

prepare
fail() {
    echo "FAILED: $1"
    exit 1
}
ask() { # SQL: its answer from the first server
    sql $one -At -F ' | ' -c "$1"
}

# Only the module's own functions are visible in it.
others=$(nm -D --defined-only "$top/target/postgres/htm.so" | awk '{ print $3 }' | grep -Ev '^(pg_htm_|pg_finfo_pg_htm_|Pg_magic_func$)' || true)
[ -z "$others" ] || fail "the module shows other symbols: $others"

start one $one jit=off
export PGPORT=$one
if ! make -s -C "$top/target/postgres" -f "$top/hosts/postgres/Makefile" HTM_LIB="$library" PG_CONFIG="$config" installcheck > "$room/check" 2>&1; then
    cat "$room/check" "$top/target/postgres/regression.diffs" || true
    fail "sql/htm.sql prints something else than expected/htm.out"
fi
echo "sql/htm.sql: as expected/htm.out"

# What docs/DATABASES.md shows in psql, in its blocks that begin with ```psql. Plans are written differently by other versions.
if [ "$(ask 'SHOW server_version_num' | cut -c 1-2)" = 15 ]; then
    sql $one -c 'CREATE DATABASE session'
    awk -v typed="$room/typed" -v shown="$room/shown" '
        /^```/ { session = $0 == "```psql"; next }
        session && /^archive[=-]# / { print substr($0, 11) > typed; next }
        session { print > shown }' "$top/docs/DATABASES.md"
    psql -X -d session < "$room/typed" 2>&1 | sed -e 's/ *$//' -e '/^$/d' > "$room/printed"
    diff "$room/shown" "$room/printed" || fail "psql prints something else than docs/DATABASES.md shows"
    echo "docs/DATABASES.md: psql prints what it shows, $(grep -c ';$' "$room/typed") statements"
fi

sql $one -f "$here/frames.sql"
sql $one -f "$here/regions.sql"
if [ "$(ask "SELECT count(*) FROM pg_available_extensions WHERE name = 'postgres_fdw'")" = 1 ]; then
    for machine in "south $south <" "north $north >="; do
        read -r name port side <<< "$machine"
        start "$name" "$port" jit=off
        sql "$port" -f "$here/machine.sql"
        ask "COPY (SELECT htm, number, x, y, z FROM frames WHERE htm $side 50331648) TO STDOUT" | sql "$port" -c '\copy frames FROM STDIN'
        sql "$port" -c 'ANALYZE'
    done
    sql $one -v host="$room" -v south=$south -v north=$north -f "$here/spread.sql"
else
    echo "postgres_fdw is missing (Debian: postgresql-contrib): the spread table is not tried"
fi
sql $one -f "$here/compare.sql"

# Every shape on every region. Below 5 % of the frames, an index serves a constant region.
echo "answers beside a test of every row, by $(ask 'SELECT count(*) FROM shapes') shapes of a search:"
count=$(ask 'SELECT count(*) FROM regions')
for place in $(seq 1 "$count"); do
    line=$(ask "SELECT name, answers, coalesce('DIFFERENT: ' || different, 'equal'), scans,
                    CASE WHEN answers < 15000 AND (scans LIKE '%Seq Scan%' OR scans NOT LIKE '%Index Scan%') AND answers > 0 THEN 'NO INDEX' END
                FROM regions, compare(region), scans(format('SELECT * FROM frames WHERE htm_within(htm, x, y, z, %L)', region))
                WHERE place = $place")
    echo "${line% | }"
    case $line in *DIFFERENT* | *'NO INDEX'*) failed=1 ;; esac
done
[ -z "${failed:-}" ] || fail "a search"

# By the degrees themselves: no frame within a cone's radius is missed, and what is held beyond is close to it.
line=$(ask "
    SELECT count(*), sum(missed), sum(far), sum(within)
    FROM (SELECT * FROM regions WHERE radius IS NOT NULL) AS c,
    LATERAL (SELECT 1 / 3600.0 + CASE WHEN radius < 2 THEN 0.005 * radius ELSE 0.6 / 3600 / sind(radius) END AS margin) AS m,
    LATERAL (SELECT count(*) FILTER (WHERE away <= radius AND NOT held) AS missed, count(*) FILTER (WHERE held AND away > radius + margin) AS far,
                 count(*) FILTER (WHERE away <= radius) AS within
             FROM (SELECT held, apart(c.ra, c.dec, f.ra, f.dec) AS away
                   FROM frames AS f, LATERAL (SELECT htm_holds(region, x, y, z) AS held OFFSET 0) AS h
                   WHERE held OR abs(c.dec - f.dec) <= radius) AS g) AS found")
echo "cones by the distance in degrees: $(echo "$line" | sed 's/\(.*\) | \(.*\) | \(.*\) | \(.*\)/\1 cones, \4 frames within, \2 of them missed, \3 held that are too far/')"
[[ $line == *' | 0 | 0 | '* ]] || fail "a cone"

# Prepared statements, with the value and without.
for mode in auto force_custom_plan force_generic_plan; do
    got=$(sql $one -At <<- END
		SET plan_cache_mode = $mode;
		PREPARE search (bytea) AS SELECT count(*) FROM frames WHERE htm_within(htm, x, y, z, \$1);
		$(for i in 1 2 3 4 5 6 7 8; do echo "EXECUTE search(htm_cone(45, 35.2644, $i));"; done)
		SELECT generic_plans > 0, custom_plans > 0 FROM pg_prepared_statements;
	END
    )
    wanted=$(ask "SELECT (SELECT count(*) FROM frames WHERE htm_holds(htm_cone(45, 35.2644, r), x, y, z)) FROM generate_series(1, 8) AS r")
    [ "$(head -n 8 <<< "$got")" = "$wanted" ] || fail "a prepared statement, $mode"
    echo "prepared, $mode: eight cones, equal; generic plans, custom plans: $(tail -n 1 <<< "$got")"
done

# A search reads the partitions, and asks the machines, that its ranges reach, and no other; the point test is made there.
cone='htm_cone(45, 35.2644, 5)'
[ "$(ask "SELECT tables FROM scans('SELECT * FROM parted WHERE htm_within(htm, x, y, z, $cone)')")" = parted_n3 ] || fail "partitions"
echo "partitions: a cone of 5 degrees in N3 reads parted_n3 only"
if [ "$(ask "SELECT to_regclass('spread') IS NOT NULL")" = t ]; then
    line=$(ask "SELECT tables, sent LIKE '%htm_checked%' AND sent LIKE '%htm >= %' FROM scans('SELECT * FROM spread WHERE htm_within(htm, x, y, z, $cone)')")
    [ "$line" = 'spread_north | t' ] || fail "machines: $line"
    echo "machines: it asks spread_north only, and sends ranges and point test"
    for name in '5 degrees' '90 degrees' 'a hemisphere, budget 2048'; do
        for shape in parted 'parted ranges' spread 'spread ranges'; do
            query=$(ask "SELECT format(query, region) FROM shapes AS s, regions AS r WHERE s.name = '$shape' AND r.name = '$name'")
            ask "$query" > /dev/null
            began=${EPOCHREALTIME/./}
            ask "$query" > /dev/null
            printf '%s, %s: %d ms\n' "$name" "$shape" $(((${EPOCHREALTIME/./} - began) / 1000))
        done
    done
fi

# Memory: five thousand covers, read to the end and left after the first row.
sql $one -At <<- END > "$room/memory"
	SELECT count(*) FROM generate_series(1, 5000) AS g, LATERAL (SELECT htm_ranges(htm_cone(g * 0.07, 0, 0.01)) LIMIT 1) AS r;
	SELECT count(*) > 5000 FROM generate_series(1, 5000) AS g, htm_ranges(htm_cone(g * 0.07, 0, 0.01));
	SELECT (regexp_match(pg_read_file('/proc/self/status'), 'VmHWM:\s*(\d+)'))[1]::integer / 1024;
END
[ "$(tail -n 1 "$room/memory")" -lt 400 ] || fail "memory: $(tr '\n' ' ' < "$room/memory")"
echo "memory: at most $(tail -n 1 "$room/memory") MB of a server process after 10,000 covers"

# A search that takes long can be stopped.
if sql $one -c "SET statement_timeout = 200" -c "SELECT count(*) FROM generate_series(1, 1000000) AS g, htm_ranges(htm_cone(g % 360, 0, 20))" 2> "$room/stopped"; then
    fail "a search is not stopped"
fi
grep -q 'canceling statement due to statement timeout' "$room/stopped" || fail "$(cat "$room/stopped")"
echo "a search of a million covers is stopped after 0.2 s"

# The comparison itself: each of these rows is one that it must not pass.
region="(SELECT region FROM regions WHERE name = '5 degrees')"
wrong() { # WHAT STATEMENT
    local line
    line=$(sql $one -At -c BEGIN -c "$2" -c "SELECT coalesce(different, 'none') FROM compare($region)" -c ROLLBACK)
    [ "$line" != none ] || fail "not seen: $1"
    echo "seen: $1 ($line)"
}
first=$(ask "SELECT number FROM frames WHERE htm_within(htm, x, y, z, $cone) ORDER BY number LIMIT 1")
wrong "a frame that is missing from the partitions" "DELETE FROM parted WHERE number = $first"
wrong "a frame of the partitions with another number" "UPDATE parted SET number = -number WHERE number = $first"
wrong "a tested frame of the partitions with another direction" "UPDATE parted SET x = -x, y = -y, z = -z WHERE number =
    (SELECT number FROM parted, htm_ranges($cone) WHERE htm BETWEEN low AND high AND kind = 'test' AND htm_holds($cone, x, y, z) LIMIT 1)"
wrong "a frame of the table that is filed elsewhere" "ALTER TABLE frames ALTER htm DROP EXPRESSION; UPDATE frames SET htm = htm_lookup(-x, -y, -z) WHERE number = $first"
echo "PostgreSQL: every shape of a search delivers what a test of every row delivers, for $count regions"
