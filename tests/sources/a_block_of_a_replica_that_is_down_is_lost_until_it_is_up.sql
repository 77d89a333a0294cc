-- The block of a replica that is down can't be had, and once that is up again it can.
CREATE TABLE t (c UInt64) ENGINE = ReplicatedMergeTree ORDER BY c;
INSERT INTO t VALUES (4);
KILL r1;
@r2 SELECT c FROM t SYNC;
RESTART r1;
@r2 SELECT c FROM t SYNC;
