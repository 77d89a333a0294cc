-- A replica that never had the dropped blocks doesn't fetch them.
CREATE TABLE t (c UInt64) ENGINE = ReplicatedMergeTree ORDER BY c;
INSERT INTO t VALUES (1);
INSERT INTO t VALUES (2);
ALTER TABLE t DROP PARTITION tuple();
@r2 SELECT count() FROM t SYNC;
@r2 SHOW PARTS FROM t;
INSERT INTO t VALUES (2);
