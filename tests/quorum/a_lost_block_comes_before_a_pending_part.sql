-- An OPTIMIZE is refused for stopped fetches, then for a block that can't be had, and then for a pending part.
REPLICAS 3;
CREATE TABLE t (c UInt64) ENGINE = ReplicatedMergeTree ORDER BY c;
@r2 SYSTEM STOP FETCHES t;
@r3 SYSTEM STOP FETCHES t;
INSERT INTO t SETTINGS insert_quorum = 2 VALUES (1);
@r3 INSERT INTO t VALUES (2);
KILL r3;
@r2 OPTIMIZE TABLE t FINAL;
@r1 OPTIMIZE TABLE t FINAL;
RESTART r3;
@r3 OPTIMIZE TABLE t FINAL;
@r1 OPTIMIZE TABLE t FINAL;
@r3 SYSTEM START FETCHES t;
@r3 OPTIMIZE TABLE t FINAL;
