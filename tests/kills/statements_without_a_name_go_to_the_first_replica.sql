-- A statement without a name goes to the first replica, also if that is down. The other one knows the block and hasn't it.
CREATE TABLE t (c UInt64) ENGINE = ReplicatedMergeTree ORDER BY c;
INSERT INTO t VALUES (1);
KILL r1;
INSERT INTO t VALUES (1);
@r2 INSERT INTO t VALUES (1);
SELECT c FROM t;
@r1 SELECT c FROM t SYNC;
