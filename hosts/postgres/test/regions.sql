-- The regions of the test: cones of 10 seconds of arc to the whole sky, polygons, and regions by halfspaces, at the poles, across ra 0, at
-- several depths and budgets. radius, ra and dec are those of a cone.
CREATE TABLE regions (
    place integer GENERATED ALWAYS AS IDENTITY PRIMARY KEY,
    name text NOT NULL,
    region bytea NOT NULL,
    ra double precision,
    dec double precision,
    radius double precision
);

INSERT INTO regions (name, region, ra, dec, radius)
SELECT name, htm_cone(ra, dec, radius), ra, dec, radius
FROM (VALUES
    ('10 seconds', 83.63, 22.01, 10 / 3600.0),
    ('10 seconds at a pole', 0, 90, 10 / 3600.0),
    ('20 seconds across ra 0', 0, 0, 20 / 3600.0),
    ('1 minute', 10.68, 41.27, 1 / 60.0),
    ('1 minute at the equator', 180, 0, 1 / 60.0),
    ('5 minutes', 200, 60, 5 / 60.0),
    ('0.1 degrees across ra 0', 359.99, 12, 0.1),
    ('0.1 degrees at a pole', 77, -90, 0.1),
    ('0.5 degrees', 120, -30, 0.5),
    ('1 degree across ra 0', 0, 0, 1),
    ('1 degree near a pole', 10, 89.5, 1),
    ('2 degrees', 200, 60, 2),
    ('5 degrees', 45, 35.2644, 5),
    ('5 degrees at a pole', 0, -90, 5),
    ('10 degrees at the equator', 180, 0, 10),
    ('15 degrees near a pole', 300, -75, 15),
    ('30 degrees across ra 0', 359.99, 12, 30),
    ('60 degrees', 83.63, 22.01, 60),
    ('90 degrees', 270, -45, 90),
    ('120 degrees', 120, -30, 120)) AS cones (name, ra, dec, radius);

INSERT INTO regions (name, region, ra, dec, radius) VALUES
    ('5 degrees, depth 8, budget 2', htm_cone(45, 35.2644, 5, 8, 2), 45, 35.2644, 5),
    ('5 degrees, depth 12, budget 2048', htm_cone(45, 35.2644, 5, 12, 2048), 45, 35.2644, 5),
    ('20 degrees, depth 5, budget 1', htm_cone(120, -30, 20, 5, 1), 120, -30, 20),
    ('3 degrees, depth 1', htm_cone(10.68, 41.27, 3, 1), 10.68, 41.27, 3);

INSERT INTO regions (name, region) VALUES
    ('the whole sky as a cone', htm_cone(0, 0, 180)),
    ('a triangle', htm_polygon(30, 20, 60, 25, 45, 50)),
    ('the same, the other way round', htm_polygon(45, 50, 60, 25, 30, 20)),
    ('a square across ra 0', htm_polygon(358, -2, 2, -2, 2, 2, 358, 2)),
    ('a square around the north pole', htm_polygon(0, 85, 90, 85, 180, 85, 270, 85)),
    ('a triangle around the south pole', htm_polygon(0, -70, 120, -80, 240, -60)),
    ('a sliver', htm_polygon(80, 22, 90, 22, 85, 22.2)),
    ('a square of 20 seconds', htm_polygon(200, 60, 200.0111, 60, 200.0111, 60.0056, 200, 60.0056)),
    ('an octant', htm_polygon(0, 0, 90, 0, 0, 90)),
    ('a square with a hole', htm_region(12, 64, 0, 254317, 1017268, 0, 0, 0, 254317, -1017268, 0, 0, 0, 254317, 0, 1017268, 0,
                                        0, 254317, 0, -1017268, 0, 0, -1048576, 0, 0, -1044586)),
    ('three caps', htm_region(10, 0, 0, 0, 0, -1048576, 1044586, 1, 0, -1048576, 0, 1048416, 2, 741455, 741455, 0, 1044586)),
    ('a hemisphere, budget 2048', htm_region(12, 2048, 0, 0, 0, 1048576, 0)),
    ('the whole sky, depth 3', htm_region(3, 5, 0, 0, 0, 1048576, -1, 1, 0, 0, -1048576, -1)),
    ('nothing', htm_region(11, 64, 0, 1048576, 0, 0, 908093, 0, 0, 0, 1048576, 908093));

INSERT INTO regions (name, region)
SELECT 'a polygon of 100 corners', htm_polygon(VARIADIC array_agg(d)) FROM generate_series(0, 99) AS i, unnest(ARRAY[3.6 * i, -65]) AS d;
