CREATE TABLE t (c UInt64) ENGINE = ReplicatedMergeTree ORDER BY c;
LANES; LANE; INSERT INTO t VALUES (1); LANE; OPTIMIZE TABLE t FINAL; INSERT INTO t VALUES (2); LANE; END;
SELECT c FROM t SYNC
-- LANES has no form: nothing of it is played, and what comes after the next `;` is read as if there were no lane.
