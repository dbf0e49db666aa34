-- 300,000 frames from degrees, the same on every machine: six of ten anywhere on the sky, the others 1 second of arc to 10 degrees around a
-- few centres, each distance as often as its double. The table frames has them all, parted has a partition for each root of the mesh.
CREATE EXTENSION htm;

-- A number from 0 to 1, by what it is drawn for.
CREATE FUNCTION drawn(n bigint, what integer) RETURNS double precision LANGUAGE sql IMMUTABLE
    RETURN ((hashint8extended(n, what) >> 11) + 4503599627370496) / 9007199254740992.0::double precision;

CREATE TABLE centres (place integer PRIMARY KEY, ra double precision, dec double precision);
INSERT INTO centres VALUES (0, 0, 0), (1, 0, 90), (2, 0, -90), (3, 359.99, 12), (4, 45, 35.2644), (5, 120, -30), (6, 200, 60), (7, 300, -75),
    (8, 83.63, 22.01), (9, 180, 0), (10, 270, -45), (11, 10.68, 41.27);

CREATE VIEW drawn_frames AS
SELECT n AS number, 360 * drawn(n, 1) AS ra, asind(2 * drawn(n, 2) - 1) AS dec
FROM generate_series(1, 180000) AS n
UNION ALL
SELECT n, degrees(a) - 360 * floor(degrees(a) / 360), asind(s)
FROM generate_series(180001, 299988) AS n
JOIN centres ON place = n % 12,
LATERAL (SELECT exp(ln(1 / 3600.0) + drawn(n, 3) * ln(36000)) AS away, 360 * drawn(n, 4) AS turned) AS d,
LATERAL (SELECT greatest(-1, least(1, sind(dec) * cosd(away) + cosd(dec) * sind(away) * cosd(turned))) AS s) AS e,
LATERAL (SELECT radians(ra) + atan2(sind(turned) * sind(away) * cosd(dec), cosd(away) - sind(dec) * s) AS a) AS f
UNION ALL
SELECT 299989 + place, ra, dec FROM centres;

CREATE TABLE frames (
    number bigint PRIMARY KEY,
    ra double precision NOT NULL,
    dec double precision NOT NULL,
    x integer NOT NULL,
    y integer NOT NULL,
    z integer NOT NULL,
    htm bigint NOT NULL GENERATED ALWAYS AS (htm_lookup(x, y, z)) STORED
);
INSERT INTO frames (number, ra, dec, x, y, z)
SELECT number, ra, dec, p.x, p.y, p.z FROM drawn_frames, htm_pointing(ra, dec) AS p;
CREATE INDEX frames_htm ON frames (htm);

-- A root r, 8 (S0) to 15 (N3), has the identifiers from r * 4^11 to (r + 1) * 4^11 - 1.
CREATE TABLE parted (
    htm integer NOT NULL, -- below 2^26
    number bigint NOT NULL,
    x integer NOT NULL,
    y integer NOT NULL,
    z integer NOT NULL,
    PRIMARY KEY (htm, number)
) PARTITION BY RANGE (htm);
SELECT format('CREATE TABLE parted_%s PARTITION OF parted FOR VALUES FROM (%s) TO (%s)', lower(htm_name(root)), root << 22, (root + 1) << 22)
FROM generate_series(8, 15) AS root \gexec
INSERT INTO parted SELECT htm, number, x, y, z FROM frames;
VACUUM ANALYZE frames;
ANALYZE parted;
