-- Each replica answers over its own block; with SYNC over both.
CREATE TABLE t (c UInt64) ENGINE = ReplicatedMergeTree ORDER BY c;
INSERT INTO t VALUES (7);
@r2 INSERT INTO t VALUES (8);
SELECT sum(c), count(), sum(c) FROM t;
@r2 SELECT sum(c) FROM t;
SELECT count() FROM t SYNC;
SELECT count() FROM t
