-- A replica without parts writes no digest. A part of two rows has 86 bytes, one without rows 62.
CREATE TABLE t (c UInt64) ENGINE = ReplicatedMergeTree ORDER BY c;
CHECK TABLE t;
INSERT INTO t VALUES (8),(7);
CHECK TABLE t;
@r2 CHECK TABLE t;
ALTER TABLE t DELETE WHERE c > 6;
CHECK TABLE t;
WAIT MUTATION t 0;
CHECK TABLE t;
ALTER TABLE t DROP PARTITION tuple();
CHECK TABLE t;
@r2 CHECK TABLE t;
