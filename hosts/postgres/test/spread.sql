-- One table over two machines, S roots on one and N roots on the other: its partitions are foreign tables. The variables host, south and
-- north say where both are. With extensions 'htm' the conditions go to the machines, and with estimates from there the planner sends each
-- range to where it lies.
CREATE EXTENSION postgres_fdw;

CREATE SERVER south FOREIGN DATA WRAPPER postgres_fdw
    OPTIONS (host :'host', port :'south', dbname 'archive', extensions 'htm', use_remote_estimate 'true', fetch_size '10000');
CREATE SERVER north FOREIGN DATA WRAPPER postgres_fdw
    OPTIONS (host :'host', port :'north', dbname 'archive', extensions 'htm', use_remote_estimate 'true', fetch_size '10000');
CREATE USER MAPPING FOR CURRENT_USER SERVER south OPTIONS (user 'archive');
CREATE USER MAPPING FOR CURRENT_USER SERVER north OPTIONS (user 'archive');

-- No primary key here: PostgreSQL keeps none over foreign tables. Each machine keeps its own.
CREATE TABLE spread (
    htm integer NOT NULL,
    number bigint NOT NULL,
    x integer NOT NULL,
    y integer NOT NULL,
    z integer NOT NULL
) PARTITION BY RANGE (htm);

CREATE FOREIGN TABLE spread_south PARTITION OF spread FOR VALUES FROM (33554432) TO (50331648)
    SERVER south OPTIONS (table_name 'frames');
CREATE FOREIGN TABLE spread_north PARTITION OF spread FOR VALUES FROM (50331648) TO (67108864)
    SERVER north OPTIONS (table_name 'frames');
