-- A merge is of one replica until the other one is brought up to date.
CREATE TABLE t (c UInt64) ENGINE = ReplicatedMergeTree ORDER BY c;
INSERT INTO t VALUES (1);
INSERT INTO t VALUES (2);
INSERT INTO t VALUES (3);
OPTIMIZE TABLE t FINAL;
SHOW PARTS FROM t;
@r2 SYSTEM SYNC REPLICA t;
@r2 SHOW PARTS FROM t;
