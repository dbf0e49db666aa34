-- The functions of the extension, with good and with bad input, and what a planner makes of htm_within. test.sh has the large tables.
\set VERBOSITY terse
CREATE EXTENSION htm;

-- identifiers and names
SELECT htm_lookup(605396, 605396, 605396), htm_lookup(0, 0, 1048576), htm_lookup(0, 0, -1048576, 1);
SELECT htm_lookup_degrees(45, 35.264389), htm_lookup_degrees(0, 90), htm_lookup_degrees(-360, -90, 1);
SELECT htm_name(67108863), htm_name(8), htm_name(htm_lookup_degrees(83.63, 22.01, 5));
SELECT htm_identifier('N333333333333'), htm_identifier('S0');
SELECT * FROM htm_pointing(90, 0), htm_pointing(0, -30) AS south (a, b, c);
-- depth 31 has bit 63
SELECT id, htm_name(id) FROM htm_identifier('N' || repeat('3', 31)) AS id;
SELECT id, htm_name(id) FROM htm_identifier('S' || repeat('0', 31)) AS id;

-- a trixel's descendants have its name's beginning
SELECT bool_and(htm_name(htm_lookup_degrees(ra, dec)) LIKE htm_name(htm_lookup_degrees(ra, dec, 5)) || '%')
FROM generate_series(-360, 360, 7) AS ra, generate_series(-90, 90, 5) AS dec;

SELECT htm_lookup(1, 2, 3);
SELECT htm_lookup(0, 0, 1048576, 0);
SELECT htm_lookup(0, 0, 1048576, 13);
SELECT htm_lookup(0, 0, 1048576, -1);
SELECT htm_lookup_degrees(360.5, 0);
SELECT htm_lookup_degrees(0, 91);
SELECT htm_lookup_degrees('NaN', 0);
SELECT htm_lookup_degrees(0, '-Infinity');
SELECT htm_lookup_degrees(0, 0, 13);
SELECT htm_pointing(0, 90.001);
SELECT htm_name(0);
SELECT htm_name(7);
SELECT htm_name(16);
SELECT htm_identifier('');
SELECT htm_identifier('N');
SELECT htm_identifier('n0');
SELECT htm_identifier('N4');
SELECT htm_identifier('N' || repeat('3', 32));
SELECT htm_identifier('Nü');

-- regions
SELECT htm_cone(40, 10, 5, 12, 64);
SELECT htm_cone(40, 10, 5, 8, 2) = htm_cone(40, 10, 5, budget => 2, depth => 8), htm_cone(ra => 40, "dec" => 10, radius => 5) = htm_cone(400 - 360, 10, 5, 0, 64);
SELECT length(htm_cone(0, 0, 0.01)) > 0, length(htm_cone(0, 0, 0)) > 0, length(htm_cone(0, 0, 180)) > 0;
SELECT length(htm_polygon(0, 0, 10, 0, 10, 10)) > 0, htm_polygon(0, 0, 10, 0, 10, 10) = htm_polygon(VARIADIC ARRAY[[0, 0], [10, 0], [10, 10]]);
SELECT htm_region(3, 5, 0, 0, 0, 1048576, 0) = '\x080001000300050004000200140003000000000000000000000010000000000004000400', htm_region(12, 0, 0, 0, 0, 1048576, -1, 1, 0, 0, -1048576, -1);

SELECT htm_cone(361, 0, 1);
SELECT htm_cone(0, 'NaN', 1);
SELECT htm_cone(0, 0, -1);
SELECT htm_cone(0, 0, 180.1);
SELECT htm_cone(0, 0, 1, 13);
SELECT htm_cone(0, 0, 1, -1);
SELECT htm_cone(0, 0, 1, 0, 2049);
SELECT htm_cone(0, 0, 1, 0, -1);
SELECT htm_polygon(0, 0, 10, 0);
SELECT htm_polygon(0, 0, 10, 0, 10);
SELECT htm_polygon(VARIADIC '{}');
SELECT htm_polygon(0, 0, 10, 0, 10, NULL);
SELECT htm_polygon(0, 0, 0, 0, 10, 10);
SELECT htm_polygon(0, 0, 10, 10, 10, 0, 0, 10);
SELECT htm_polygon(0, 0, 10, 0, 10, 100);
SELECT htm_polygon(VARIADIC (SELECT array_agg(d) FROM generate_series(0, 100) AS i, unnest(ARRAY[360 * i / 101.0, 80]) AS d));
SELECT htm_region(12, 64);
SELECT htm_region(12, 64, VARIADIC '{}');
SELECT htm_region(12, 64, 0, 0, 0, 1048576);
SELECT htm_region(12, 64, 0, 0, 0, 1048576, NULL);
SELECT htm_region(12, 64, 0, 0, 0, 1, 0);
SELECT htm_region(12, 64, 0, 0, 0, 1048576, 1048577);
SELECT htm_region(0, 64, 0, 0, 0, 1048576, 0);

-- the point test
SELECT htm_holds(htm_cone(0, 90, 1), 0, 0, 1048576), htm_holds(htm_cone(0, 90, 1), 0, 0, -1048576);
SELECT htm_holds_degrees(htm_cone(359.9, 0, 0.2), 0.05, 0), htm_holds_degrees(htm_cone(359.9, 0, 0.2), 0.15, 0), htm_holds_degrees(htm_cone(0, 0, 180), 17, 4);
SELECT htm_holds(htm_cone(0, 90, 1), 0, 0, 1);
SELECT htm_holds_degrees(htm_cone(0, 90, 1), 0, 95);
SELECT htm_holds('\x', 0, 0, 1048576);
SELECT htm_holds('\x0000', 0, 0, 1048576);
SELECT htm_holds(repeat('x', 20000)::bytea, 0, 0, 1048576);

-- ranges
SELECT * FROM htm_ranges(htm_region(3, 5, 0, 0, 0, 1048576, 0));
SELECT * FROM htm_ranges(htm_region(3, 5, 0, 0, 0, 1048576, 0)) LIMIT 2;
SELECT count(*) FROM htm_ranges(htm_region(11, 64, 0, 1048576, 0, 0, 908093, 0, 0, 0, 1048576, 908093)); -- nothing is in both
SELECT (htm_ranges(htm_region(1, 1, 0, 0, 0, 1048576, 0))).*;
SELECT count(*) > 0 AS some, bool_and(low <= high) AS forward, bool_and(low > before) AS ascending, bool_and(kind IN ('inner', 'test')) AS kinds, min(low) >= 33554432 AND max(high) < 67108864 AS depth_12
FROM (SELECT *, lag(high, 1, 0::bigint) OVER (ORDER BY low) AS before FROM htm_ranges(htm_cone(123, 45, 20, 12, 2048))) AS r;
SELECT * FROM htm_ranges('\x00');

-- null gives null
SELECT htm_lookup(NULL, 0, 0) IS NULL, htm_lookup_degrees(0, NULL) IS NULL, htm_pointing(0, NULL) IS NULL, htm_name(NULL) IS NULL,
    htm_identifier(NULL) IS NULL, htm_cone(0, NULL, 0) IS NULL, htm_polygon(VARIADIC NULL) IS NULL, htm_region(1, NULL, 1) IS NULL,
    htm_holds(NULL, 0, 0, 0) IS NULL, htm_holds_degrees('\x', 0, NULL) IS NULL, htm_within(NULL::bigint, 1, 1, 1, '\x') IS NULL,
    htm_within(8, 1, 1, 1, NULL) IS NULL, htm_within_degrees(8::bigint, 1, 1, NULL) IS NULL;
SELECT count(*) FROM htm_ranges(NULL);

-- the code of a refusal, and of a null among numbers
\set VERBOSITY sqlstate
SELECT htm_cone(0, 0, 1, 0, 2049);
SELECT htm_cone(0, 0, 200);
SELECT htm_polygon(0, 0, 10, 0, 10, NULL);
\set VERBOSITY terse

-- a table: directions spread evenly over the sky
CREATE TABLE frames (
    number bigint PRIMARY KEY,
    ra double precision NOT NULL,
    dec double precision NOT NULL,
    x integer NOT NULL, y integer NOT NULL, z integer NOT NULL,
    htm bigint GENERATED ALWAYS AS (htm_lookup(x, y, z)) STORED
);
INSERT INTO frames (number, ra, dec, x, y, z)
SELECT i, ra, dec, p.x, p.y, p.z
FROM generate_series(0, 19999) AS i,
    LATERAL (SELECT (i * 137.50776405003785)::numeric % 360 AS ra, degrees(asin(2 * (i + 0.5) / 20000 - 1)) AS dec) AS d,
    htm_pointing(ra::double precision, dec) AS p;
CREATE INDEX frames_htm ON frames (htm);
ANALYZE frames;
SELECT count(*), bool_and(htm = htm_lookup_degrees(ra, dec)) FROM frames;

-- the scans of a plan
CREATE FUNCTION scans(query text) RETURNS text LANGUAGE plpgsql AS $$
DECLARE
    plan json;
BEGIN
    EXECUTE 'EXPLAIN (FORMAT JSON) ' || query INTO plan;
    RETURN (SELECT string_agg(DISTINCT n[1], ', ' ORDER BY n[1]) FROM regexp_matches(plan::text, '"Node Type": "([^"]*Scan)"', 'g') AS n);
END $$;
SET enable_indexscan = off; -- one shape of plan
SET jit = off;

SELECT count(*), scans('SELECT * FROM frames WHERE htm_within(htm, x, y, z, htm_cone(40, 10, 5))') FROM frames WHERE htm_within(htm, x, y, z, htm_cone(40, 10, 5));
SELECT count(*), scans('SELECT * FROM frames WHERE htm_holds(htm_cone(40, 10, 5), x, y, z)') FROM frames WHERE htm_holds(htm_cone(40, 10, 5), x, y, z);
SELECT count(*), scans('SELECT * FROM frames WHERE htm_within_degrees(htm, ra, dec, htm_cone(40, 10, 5))') FROM frames WHERE htm_within_degrees(htm, ra, dec, htm_cone(40, 10, 5));
SELECT count(*) FROM htm_ranges(htm_cone(40, 10, 5)) CROSS JOIN LATERAL (SELECT * FROM frames WHERE htm BETWEEN low AND high OFFSET 0) AS found
WHERE kind = 'inner' OR htm_holds(htm_cone(40, 10, 5), x, y, z);
SELECT count(*), scans('SELECT * FROM frames WHERE htm_within(htm, x, y, z, htm_polygon(30, 0, 50, 0, 40, 20))') FROM frames WHERE htm_within(htm, x, y, z, htm_polygon(30, 0, 50, 0, 40, 20));
SELECT count(*) FROM frames WHERE htm_holds(htm_polygon(30, 0, 50, 0, 40, 20), x, y, z);

-- nothing, everything, and two regions
SELECT count(*) FROM frames WHERE htm_within(htm, x, y, z, htm_region(11, 64, 0, 1048576, 0, 0, 908093, 0, 0, 0, 1048576, 908093));
SELECT count(*) FROM frames WHERE htm_within(htm, x, y, z, htm_cone(0, 0, 180));
SELECT count(*), scans('SELECT * FROM frames WHERE htm_within(htm, x, y, z, htm_cone(40, 10, 5)) OR htm_within(htm, x, y, z, htm_cone(42, 10, 5))') FROM frames WHERE htm_within(htm, x, y, z, htm_cone(40, 10, 5)) OR htm_within(htm, x, y, z, htm_cone(42, 10, 5));
SELECT count(*) FROM frames WHERE htm_holds(htm_cone(40, 10, 5), x, y, z) OR htm_holds(htm_cone(42, 10, 5), x, y, z);
SELECT count(*) FROM frames WHERE NOT htm_within(htm, x, y, z, htm_cone(40, 10, 5));

-- more ranges than a plan takes
SELECT count(*), scans('SELECT * FROM frames WHERE htm_within(htm, x, y, z, htm_cone(40, 10, 5, 12, 2048))') FROM frames WHERE htm_within(htm, x, y, z, htm_cone(40, 10, 5, 12, 2048));

-- a bad region is refused when a row is tested
EXPLAIN (COSTS OFF) SELECT * FROM frames WHERE htm_within(htm, x, y, z, '\x00');
SELECT count(*) FROM frames WHERE htm_within(htm, x, y, z, '\x00');
SELECT count(*) FROM frames WHERE htm_within(htm, x, y, z, htm_cone(0, 0, 1, 0, 4000));

-- a parameter: planned with its value, and without
PREPARE search (bytea) AS SELECT count(*) FROM frames WHERE htm_within(htm, x, y, z, $1);
SET plan_cache_mode = force_custom_plan;
EXECUTE search(htm_cone(40, 10, 5));
SELECT scans('EXECUTE search(htm_cone(40, 10, 5))');
SET plan_cache_mode = force_generic_plan;
EXECUTE search(htm_cone(40, 10, 5));
EXECUTE search(htm_polygon(30, 0, 50, 0, 40, 20));
EXECUTE search(htm_cone(40, 10, 5));
EXECUTE search(htm_cone(0, 0, 180));
EXECUTE search(htm_region(11, 64, 0, 1048576, 0, 0, 908093, 0, 0, 0, 1048576, 908093));
EXECUTE search(NULL);
EXECUTE search('\x00');
SELECT scans('EXECUTE search(htm_cone(40, 10, 5))');
PREPARE search_degrees (bytea) AS SELECT count(*) FROM frames WHERE htm_within_degrees(htm, ra, dec, $1);
EXECUTE search_degrees(htm_cone(40, 10, 5));
SELECT scans('EXECUTE search_degrees(htm_cone(40, 10, 5))');
RESET plan_cache_mode;

-- a function of SQL that is not put into the query, and one of PL/pgSQL
CREATE FUNCTION found_sql(region bytea) RETURNS bigint LANGUAGE sql VOLATILE AS 'SELECT count(*) FROM frames WHERE htm_within(htm, x, y, z, region)';
CREATE FUNCTION found_plpgsql(region bytea) RETURNS bigint LANGUAGE plpgsql AS 'BEGIN RETURN (SELECT count(*) FROM frames WHERE htm_within(htm, x, y, z, region)); END';
SELECT r, found_sql(htm_cone(40, 10, r)), found_plpgsql(htm_cone(40, 10, r)), (SELECT count(*) FROM frames WHERE htm_holds(htm_cone(40, 10, r), x, y, z))
FROM unnest(ARRAY[0, 1, 2, 3, 5, 10, 20, 90]) AS r;

-- the region of another table: no index serves htm_within, and one serves the ranges
CREATE TABLE regions (name text, region bytea);
INSERT INTO regions VALUES ('cone', htm_cone(40, 10, 5)), ('triangle', htm_polygon(30, 0, 50, 0, 40, 20)), ('none', NULL);
ALTER TABLE regions ALTER region SET STORAGE EXTERNAL;
-- a hundred corners: two thousand bytes and more, out of line
INSERT INTO regions SELECT 'round', htm_polygon(VARIADIC array_agg(d)) FROM generate_series(0, 99) AS i, unnest(ARRAY[3.6 * i, 80]) AS d;
SELECT name, length(region) > 2000 AS long, (SELECT count(*) FROM frames WHERE htm_within(htm, x, y, z, region)) AS tested,
    (SELECT count(*) FROM htm_ranges(region) CROSS JOIN LATERAL (SELECT * FROM frames WHERE htm BETWEEN low AND high OFFSET 0) AS f WHERE kind = 'inner' OR htm_holds(region, x, y, z)) AS searched
FROM regions ORDER BY name;
SELECT scans('SELECT * FROM frames, regions WHERE htm_within(htm, x, y, z, region)');
SELECT scans('SELECT * FROM regions, htm_ranges(region) CROSS JOIN LATERAL (SELECT * FROM frames WHERE htm BETWEEN low AND high OFFSET 0) AS f');

-- an integer column
CREATE TABLE small AS SELECT number, ra, dec, x, y, z, htm::integer AS htm FROM frames;
CREATE INDEX ON small (htm);
ANALYZE small;
SELECT count(*), scans('SELECT * FROM small WHERE htm_within(htm, x, y, z, htm_cone(40, 10, 5))') FROM small WHERE htm_within(htm, x, y, z, htm_cone(40, 10, 5));
SELECT count(*), scans('SELECT * FROM small WHERE htm_within_degrees(htm, ra, dec, htm_cone(40, 10, 5))') FROM small WHERE htm_within_degrees(htm, ra, dec, htm_cone(40, 10, 5));
PREPARE search_small (bytea) AS SELECT count(*) FROM small WHERE htm_within(htm, x, y, z, $1);
SET plan_cache_mode = force_generic_plan;
EXECUTE search_small(htm_cone(40, 10, 5));
SELECT scans('EXECUTE search_small(htm_cone(40, 10, 5))');
RESET plan_cache_mode;

-- no column at all: an index on the lookup
CREATE TABLE plain AS SELECT number, ra, dec FROM frames;
CREATE INDEX ON plain (htm_lookup_degrees(ra, dec));
ANALYZE plain;
SELECT count(*), scans('SELECT * FROM plain WHERE htm_within_degrees(htm_lookup_degrees(ra, dec), ra, dec, htm_cone(40, 10, 5))') FROM plain WHERE htm_within_degrees(htm_lookup_degrees(ra, dec), ra, dec, htm_cone(40, 10, 5));

-- a volatile identifier is computed once
CREATE SEQUENCE calls;
CREATE FUNCTION counted(id bigint) RETURNS bigint LANGUAGE plpgsql VOLATILE AS 'BEGIN PERFORM nextval(''calls''); RETURN id; END';
SELECT count(*) FROM frames WHERE number < 10 AND htm_within(counted(htm), x, y, z, htm_cone(40, 10, 5));
SELECT last_value FROM calls;

-- partitions: only those that the ranges reach
CREATE TABLE parted (number bigint, x integer, y integer, z integer, htm bigint) PARTITION BY RANGE (htm);
SELECT format('CREATE TABLE parted_%s PARTITION OF parted FOR VALUES FROM (%s) TO (%s)', lower(htm_name(root)), root << 22, (root + 1) << 22) FROM generate_series(8, 15) AS root \gexec
INSERT INTO parted SELECT number, x, y, z, htm FROM frames;
CREATE INDEX ON parted (htm);
ANALYZE parted;
-- the tables of a plan
CREATE FUNCTION partitions(query text) RETURNS text LANGUAGE plpgsql AS $$
DECLARE
    plan json;
BEGIN
    EXECUTE 'EXPLAIN (FORMAT JSON) ' || query INTO plan;
    RETURN (SELECT string_agg(DISTINCT n[1], ', ' ORDER BY n[1]) FROM regexp_matches(plan::text, '"Relation Name": "([^"]*)"', 'g') AS n);
END $$;
SELECT count(*), partitions('SELECT * FROM parted WHERE htm_within(htm, x, y, z, htm_cone(45, 35, 3))') FROM parted WHERE htm_within(htm, x, y, z, htm_cone(45, 35, 3));
SELECT count(*), partitions('SELECT * FROM parted WHERE htm_within(htm, x, y, z, htm_cone(45, 0, 3))') FROM parted WHERE htm_within(htm, x, y, z, htm_cone(45, 0, 3));
SELECT count(*), partitions('SELECT * FROM parted WHERE htm_within(htm, x, y, z, htm_cone(0, 90, 3))') FROM parted WHERE htm_within(htm, x, y, z, htm_cone(0, 90, 3));
SELECT (SELECT count(*) FROM frames WHERE htm_holds(htm_cone(45, 35, 3), x, y, z)), (SELECT count(*) FROM frames WHERE htm_holds(htm_cone(45, 0, 3), x, y, z)), (SELECT count(*) FROM frames WHERE htm_holds(htm_cone(0, 90, 3), x, y, z));

-- another schema, which is not on the path
CREATE SCHEMA sky;
ALTER EXTENSION htm SET SCHEMA sky;
SELECT count(*), scans('SELECT * FROM frames WHERE sky.htm_within(htm, x, y, z, sky.htm_cone(40, 10, 5))') FROM frames WHERE sky.htm_within(htm, x, y, z, sky.htm_cone(40, 10, 5));
ALTER EXTENSION htm SET SCHEMA public;
