-- A filter that keeps some rows, least and greatest of none, and count(*).
CREATE TABLE t (c UInt64) ENGINE = ReplicatedMergeTree ORDER BY c;
INSERT INTO t VALUES (2),(1);
SELECT * FROM t WHERE NOT c = 2 SYNC;
SELECT min(c), max(c) FROM t WHERE c > 5 SYNC;
SELECT count(*) FROM t SYNC;
