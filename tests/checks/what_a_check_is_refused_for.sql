CREATE TABLE t (c UInt64) ENGINE = ReplicatedMergeTree ORDER BY c;
CHECK TABLE u;
@r3 CHECK TABLE u;
@r3 CHECK TABLE t;
INSERT INTO t VALUES (1);
KILL r1;
CHECK TABLE t;
RESTART r1;
CHECK TABLE t;
CHECK t;
CHECK TABLE t FINAL;
-- Unknown tables and replicas come first, then a replica that is down; after its restart it has the same digest.
