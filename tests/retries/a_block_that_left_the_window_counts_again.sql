-- The window keeps the last two blocks: the third lets the first go, and a duplicate stays no longer.
CREATE TABLE t (a UInt64) ENGINE = ReplicatedMergeTree ORDER BY a
SETTINGS replicated_deduplication_window = 2;
INSERT INTO t VALUES (1);
@r2 INSERT INTO t VALUES (2);
@r2 INSERT INTO t VALUES (1);
INSERT INTO t VALUES (3);
INSERT INTO t VALUES (2);
INSERT INTO t VALUES (1);
INSERT INTO t VALUES (2);
INSERT INTO t VALUES (1);
