-- The marks of a replica that is down stay until it is up again: two of the turns would do an entry of it, find none, and draw no place.
CREATE TABLE t (c UInt64) ENGINE = ReplicatedMergeTree ORDER BY c;
INSERT INTO t VALUES (1);
INSERT INTO t VALUES (2);
@r2 SYSTEM SYNC REPLICA t;
KILL r2;
RUN t 8 SEED 25;
SHOW PARTS FROM t;
RESTART r2;
@r2 SHOW PARTS FROM t;
