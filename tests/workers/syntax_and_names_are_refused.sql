-- Statements of no form, and of tables, replicas and columns that there aren't.
CREATE TABLE t (c UInt64, s String) ENGINE = ReplicatedMergeTree ORDER BY c;
INSERT INTO t VALUES (1);
INSERT INTO nope VALUES (1, 'a');
@r3 SELECT c FROM t SYNC;
SELECT c FROM;
INSERT INTO t (c, c) VALUES (1, 1);
INSERT INTO t (c, s) VALUES (1, 'a');
SELECT count() FROM t SYNC;
