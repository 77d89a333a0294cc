-- ALTER UPDATE and DELETE, before and after WAIT MUTATION: each row counts as it was changed.
CREATE TABLE t (c UInt64, s String) ENGINE = ReplicatedMergeTree ORDER BY c;
INSERT INTO t VALUES (1, 'a'), (2, 'b'), (3, 'c');
ALTER TABLE t UPDATE s = 'z' WHERE c = 2;
@r2 SELECT * FROM t SYNC;
INSERT INTO t VALUES (2, 'later');
ALTER TABLE t DELETE WHERE c = 1;
SELECT * FROM t SYNC;
@r2 WAIT MUTATION t 1;
WAIT MUTATION t 0;
WAIT MUTATION t 2;
@r2 SELECT * FROM t SYNC;
ALTER TABLE t UPDATE c = 1 WHERE c = 1;
