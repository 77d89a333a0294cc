-- What SYNC brought stays.
CREATE TABLE t (c UInt64) ENGINE = ReplicatedMergeTree ORDER BY c;
INSERT INTO t VALUES (1);
@r2 SELECT count() FROM t;
@r2 SELECT count() FROM t SYNC;
@r2 SELECT c FROM t;
