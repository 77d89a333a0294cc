-- The lost block comes before neighbours that can't be merged.
CREATE TABLE t (k UInt64, c UInt64) ENGINE = ReplicatedMergeTree ORDER BY k;
INSERT INTO t VALUES (1,1);
ALTER TABLE t DELETE WHERE k = 9;
@r2 INSERT INTO t VALUES (2,1);
KILL r1;
@r2 OPTIMIZE TABLE t FINAL;
RESTART r1;
@r2 OPTIMIZE TABLE t FINAL;
