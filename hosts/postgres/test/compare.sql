-- What each shape of a search delivers for a region, beside a test of every row.

-- The shapes. %1$L is the region.
CREATE TABLE shapes (name text PRIMARY KEY, query text NOT NULL);
INSERT INTO shapes VALUES
    ('within', 'SELECT number FROM frames WHERE htm_within(htm, x, y, z, %1$L)'),
    ('within_degrees', 'SELECT number FROM frames WHERE htm_within_degrees(htm, ra, dec, %1$L)'),
    ('ranges', 'SELECT number FROM htm_ranges(%1$L) CROSS JOIN LATERAL (SELECT * FROM frames WHERE htm BETWEEN low AND high OFFSET 0) AS found
                WHERE kind = ''inner'' OR htm_holds(%1$L, x, y, z)'),
    ('joined', 'SELECT number FROM htm_ranges(%1$L) JOIN frames ON htm BETWEEN low AND high WHERE kind = ''inner'' OR htm_holds(%1$L, x, y, z)'),
    ('parameter', 'SELECT number FROM found(%1$L) AS number'),
    ('parted', 'SELECT number FROM parted WHERE htm_within(htm, x, y, z, %1$L)'),
    ('parted ranges', 'SELECT number FROM htm_ranges(%1$L) CROSS JOIN LATERAL (SELECT * FROM parted WHERE htm BETWEEN low AND high OFFSET 0) AS found
                       WHERE kind = ''inner'' OR htm_holds(%1$L, x, y, z)'),
    ('spread', 'SELECT number FROM spread WHERE htm_within(htm, x, y, z, %1$L)'),
    ('spread ranges', 'SELECT number FROM htm_ranges(%1$L) CROSS JOIN LATERAL (SELECT * FROM spread WHERE htm BETWEEN low AND high OFFSET 0) AS found
                       WHERE kind = ''inner'' OR htm_holds(%1$L, x, y, z)');
DELETE FROM shapes WHERE name LIKE 'spread%' AND to_regclass('spread') IS NULL;

-- A function that is planned without its parameter's value.
CREATE FUNCTION found(region bytea) RETURNS SETOF bigint LANGUAGE sql VOLATILE AS 'SELECT number FROM frames WHERE htm_within(htm, x, y, z, region)';

CREATE FUNCTION digest(query text, OUT answers bigint, OUT sum text) LANGUAGE plpgsql AS $$
BEGIN
    EXECUTE format('SELECT count(*), md5(coalesce(string_agg(number::text, '','' ORDER BY number), '''')) FROM (%s) AS q', query) INTO answers, sum;
END $$;

-- The answers of a test of every row, and the names of the shapes that deliver something else.
CREATE FUNCTION compare(tested bytea, OUT answers bigint, OUT different text) LANGUAGE plpgsql AS $$
DECLARE
    wanted record;
BEGIN
    wanted := digest(format('SELECT number FROM frames WHERE htm_holds(%L, x, y, z)', tested));
    answers := wanted.answers;
    SELECT string_agg(name, ', ' ORDER BY name) INTO different FROM shapes, digest(format(query, tested)) AS got WHERE got IS DISTINCT FROM wanted;
END $$;

-- The scans of a plan, and the tables that it reads.
CREATE FUNCTION scans(query text, OUT scans text, OUT tables text, OUT sent text) LANGUAGE plpgsql AS $$
DECLARE
    plan json;
BEGIN
    EXECUTE 'EXPLAIN (VERBOSE, FORMAT JSON) ' || query INTO plan;
    SELECT string_agg(DISTINCT n[1], ', ' ORDER BY n[1]) INTO scans FROM regexp_matches(plan::text, '"Node Type": "([^"]*Scan)"', 'g') AS n;
    SELECT string_agg(DISTINCT n[1], ', ' ORDER BY n[1]) INTO tables FROM regexp_matches(plan::text, '"Relation Name": "([^"]*)"', 'g') AS n;
    SELECT string_agg(n[1], '; ') INTO sent FROM regexp_matches(plan::text, '"Remote SQL": "(.*?)[^\\]"', 'g') AS n;
END $$;

-- Degrees between two directions.
CREATE FUNCTION apart(ra1 double precision, dec1 double precision, ra2 double precision, dec2 double precision) RETURNS double precision
    LANGUAGE sql IMMUTABLE
    RETURN 2 * asind(least(1, sqrt(sind((dec2 - dec1) / 2) ^ 2 + cosd(dec1) * cosd(dec2) * sind((ra2 - ra1) / 2) ^ 2)));
