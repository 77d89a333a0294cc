-- A replica that has no other one beside it is refused too.
REPLICAS 1;
CREATE TABLE t (c UInt64) ENGINE = ReplicatedMergeTree ORDER BY c;
INSERT INTO t VALUES (1);
SYSTEM STOP FETCHES t;
SELECT c FROM t SYNC;
SELECT c FROM t;
RUN t 1 SEED 2;
SHOW PARTS FROM t;
SYSTEM START FETCHES t;
SELECT c FROM t SYNC;
