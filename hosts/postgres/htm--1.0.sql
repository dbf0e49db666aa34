-- The extension htm. Directions: ra and dec in degrees, or x, y, z, whole numbers, 1048576 times the unit vector. docs/DATABASES.md has examples.
\echo Use "CREATE EXTENSION htm" to load this file. \quit

-- Identifiers and names

CREATE FUNCTION htm_lookup(x integer, y integer, z integer, depth integer DEFAULT 12) RETURNS bigint
    AS 'MODULE_PATHNAME', 'pg_htm_lookup' LANGUAGE C IMMUTABLE STRICT PARALLEL SAFE COST 40;
CREATE FUNCTION htm_lookup_degrees(ra double precision, "dec" double precision, depth integer DEFAULT 12) RETURNS bigint
    AS 'MODULE_PATHNAME', 'pg_htm_lookup_degrees' LANGUAGE C IMMUTABLE STRICT PARALLEL SAFE COST 60;
CREATE FUNCTION htm_pointing(ra double precision, "dec" double precision, OUT x integer, OUT y integer, OUT z integer)
    AS 'MODULE_PATHNAME', 'pg_htm_pointing' LANGUAGE C IMMUTABLE STRICT PARALLEL SAFE COST 30;
CREATE FUNCTION htm_name(id bigint) RETURNS text
    AS 'MODULE_PATHNAME', 'pg_htm_name' LANGUAGE C IMMUTABLE STRICT PARALLEL SAFE COST 10;
CREATE FUNCTION htm_identifier(name text) RETURNS bigint
    AS 'MODULE_PATHNAME', 'pg_htm_identifier' LANGUAGE C IMMUTABLE STRICT PARALLEL SAFE COST 10;

-- Regions: a region is a region file

CREATE FUNCTION htm_cone(ra double precision, "dec" double precision, radius double precision, depth integer DEFAULT 0,
                         budget integer DEFAULT 64) RETURNS bytea
    AS 'MODULE_PATHNAME', 'pg_htm_cone' LANGUAGE C IMMUTABLE STRICT PARALLEL SAFE COST 300;
CREATE FUNCTION htm_polygon(VARIADIC degrees double precision[]) RETURNS bytea
    AS 'MODULE_PATHNAME', 'pg_htm_polygon' LANGUAGE C IMMUTABLE STRICT PARALLEL SAFE COST 300;
CREATE FUNCTION htm_region(depth integer, budget integer, VARIADIC numbers integer[]) RETURNS bytea
    AS 'MODULE_PATHNAME', 'pg_htm_region' LANGUAGE C IMMUTABLE STRICT PARALLEL SAFE COST 100;

CREATE FUNCTION htm_holds(region bytea, x integer, y integer, z integer) RETURNS boolean
    AS 'MODULE_PATHNAME', 'pg_htm_holds' LANGUAGE C IMMUTABLE STRICT PARALLEL SAFE COST 30;
CREATE FUNCTION htm_holds_degrees(region bytea, ra double precision, "dec" double precision) RETURNS boolean
    AS 'MODULE_PATHNAME', 'pg_htm_holds_degrees' LANGUAGE C IMMUTABLE STRICT PARALLEL SAFE COST 50;
CREATE FUNCTION htm_ranges(region bytea) RETURNS TABLE (kind text, low bigint, high bigint)
    AS 'MODULE_PATHNAME', 'pg_htm_ranges' LANGUAGE C IMMUTABLE STRICT PARALLEL SAFE COST 20000 ROWS 100;

-- What the planner makes of htm_within. Not for queries.

CREATE FUNCTION htm_checked_support(internal) RETURNS internal AS 'MODULE_PATHNAME', 'pg_htm_checked_support' LANGUAGE C STRICT;
CREATE FUNCTION htm_checked(htm bigint, x integer, y integer, z integer, region bytea, inner_ranges bigint[]) RETURNS boolean
    AS 'MODULE_PATHNAME', 'pg_htm_checked' LANGUAGE C IMMUTABLE STRICT PARALLEL SAFE COST 30 SUPPORT htm_checked_support;
CREATE FUNCTION htm_checked_degrees(htm bigint, ra double precision, "dec" double precision, region bytea, inner_ranges bigint[])
    RETURNS boolean
    AS 'MODULE_PATHNAME', 'pg_htm_checked_degrees' LANGUAGE C IMMUTABLE STRICT PARALLEL SAFE COST 40 SUPPORT htm_checked_support;
CREATE FUNCTION htm_part_low(region bytea, part integer) RETURNS bigint
    AS 'MODULE_PATHNAME', 'pg_htm_part_low' LANGUAGE C IMMUTABLE STRICT PARALLEL SAFE COST 1000;
CREATE FUNCTION htm_part_high(region bytea, part integer) RETURNS bigint
    AS 'MODULE_PATHNAME', 'pg_htm_part_high' LANGUAGE C IMMUTABLE STRICT PARALLEL SAFE COST 1000;

-- The condition of a search: htm is the depth-12 identifier of the direction

CREATE FUNCTION htm_within_support(internal) RETURNS internal AS 'MODULE_PATHNAME', 'pg_htm_within_support' LANGUAGE C STRICT;
CREATE FUNCTION htm_within(htm bigint, x integer, y integer, z integer, region bytea) RETURNS boolean
    AS 'MODULE_PATHNAME', 'pg_htm_within' LANGUAGE C IMMUTABLE STRICT PARALLEL SAFE COST 30 SUPPORT htm_within_support;
CREATE FUNCTION htm_within(htm integer, x integer, y integer, z integer, region bytea) RETURNS boolean
    AS 'MODULE_PATHNAME', 'pg_htm_within' LANGUAGE C IMMUTABLE STRICT PARALLEL SAFE COST 30 SUPPORT htm_within_support;
CREATE FUNCTION htm_within_degrees(htm bigint, ra double precision, "dec" double precision, region bytea) RETURNS boolean
    AS 'MODULE_PATHNAME', 'pg_htm_within_degrees' LANGUAGE C IMMUTABLE STRICT PARALLEL SAFE COST 50 SUPPORT htm_within_support;
CREATE FUNCTION htm_within_degrees(htm integer, ra double precision, "dec" double precision, region bytea) RETURNS boolean
    AS 'MODULE_PATHNAME', 'pg_htm_within_degrees' LANGUAGE C IMMUTABLE STRICT PARALLEL SAFE COST 50 SUPPORT htm_within_support;
