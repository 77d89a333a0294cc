-- Stopped fetches come before two parts that aren't merged, also where there is nothing to fetch.
CREATE TABLE t (k UInt64, c UInt64) ENGINE = ReplicatedMergeTree ORDER BY k;
INSERT INTO t VALUES (1,1);
ALTER TABLE t UPDATE c = 2 WHERE k = 1;
INSERT INTO t VALUES (2,2);
@r1 SYSTEM STOP FETCHES t;
OPTIMIZE TABLE t FINAL;
WAIT MUTATION t 0;
@r1 SHOW PARTS FROM t;
@r1 SYSTEM START FETCHES t;
OPTIMIZE TABLE t FINAL;
WAIT MUTATION t 0;
