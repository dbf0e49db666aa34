-- The table on each machine of a spread archive: the frames of its range of identifiers.
CREATE EXTENSION htm;
CREATE TABLE frames (
    htm integer NOT NULL,
    number bigint NOT NULL,
    x integer NOT NULL,
    y integer NOT NULL,
    z integer NOT NULL,
    PRIMARY KEY (htm, number)
);
