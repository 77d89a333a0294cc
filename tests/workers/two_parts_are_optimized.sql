-- OPTIMIZE of two parts, whoever merges them first.
CREATE TABLE t (c UInt64, s String) ENGINE = ReplicatedMergeTree ORDER BY c;
INSERT INTO t VALUES (2, 'b');
@r2 INSERT INTO t VALUES (1, 'a');
@r2 OPTIMIZE TABLE t FINAL;
OPTIMIZE TABLE t FINAL;
SELECT * FROM t;
OPTIMIZE TABLE t PARTITION ID '7' FINAL;
