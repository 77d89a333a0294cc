-- A quorum that isn't met leaves its part pending. A replica that fetches again meets it once it is up to date.
REPLICAS 3;
CREATE TABLE t (c UInt64) ENGINE = ReplicatedMergeTree ORDER BY c;
@r2 SYSTEM STOP FETCHES t;
@r3 SYSTEM STOP FETCHES t;
INSERT INTO t SETTINGS insert_quorum = 2 VALUES (1);
INSERT INTO t SETTINGS insert_quorum = 2 VALUES (2);
INSERT INTO t SETTINGS insert_quorum = 4 VALUES (2);
SELECT count() FROM t SETTINGS select_sequential_consistency = 1;
@r2 SYSTEM START FETCHES t;
@r2 SYSTEM SYNC REPLICA t;
@r2 SELECT c FROM t SETTINGS select_sequential_consistency = 1;
@r3 SELECT c FROM t SETTINGS select_sequential_consistency = 1;
