REPLICAS 1;
CREATE TABLE t (c UInt64) ENGINE = ReplicatedMergeTree ORDER BY c;
@r2 SELECT c FROM t;
@r1 INSERT INTO t FORMAT CSV

;
SELECT c FROM t SYNC;
REPLICAS 2;
-- One replica; no rows make no block; REPLICAS comes first or nowhere.
