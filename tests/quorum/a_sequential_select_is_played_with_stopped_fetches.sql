-- A sequential SELECT brings no replica up to date, and is played with stopped fetches.
CREATE TABLE t (c UInt64) ENGINE = ReplicatedMergeTree ORDER BY c;
@r2 SYSTEM STOP FETCHES t;
INSERT INTO t VALUES (1);
@r2 INSERT INTO t VALUES (2);
@r2 SELECT c FROM t SETTINGS select_sequential_consistency = 1;
@r2 SELECT c FROM t SYNC;
