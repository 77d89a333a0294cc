-- INSERT: a block for each partition.
CREATE TABLE t (c UInt64, d UInt64) ENGINE = ReplicatedMergeTree PARTITION BY intDiv(c, 10) ORDER BY c;
INSERT INTO t VALUES (1, 1), (11, 2), (21, 3), (2, 4);
@r2 INSERT INTO t FORMAT CSV
31,5
12,6
;
INSERT INTO t VALUES (1, 1), (11, 2), (2, 4), ('x', 1);
INSERT INTO t VALUES;
@r2 SELECT count(), sum(d) FROM t SYNC;
SELECT c, d FROM t WHERE c > 10 SYNC;
