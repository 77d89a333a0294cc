-- Of two parts with different mutations and two of which one is pending, those that come first are told.
CREATE TABLE t (k UInt64, c UInt64) ENGINE = ReplicatedMergeTree ORDER BY k;
INSERT INTO t VALUES (1,1);
ALTER TABLE t UPDATE c = 2 WHERE k = 1;
INSERT INTO t VALUES (2,2);
INSERT INTO t VALUES (3,3);
@r2 SYSTEM STOP FETCHES t;
INSERT INTO t SETTINGS insert_quorum = 2 VALUES (4,4);
OPTIMIZE TABLE t FINAL;
WAIT MUTATION t 0;
OPTIMIZE TABLE t FINAL;
ALTER TABLE t UPDATE c = 5 WHERE k = 4;
INSERT INTO t VALUES (6,6);
OPTIMIZE TABLE t FINAL;
