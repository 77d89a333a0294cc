-- As many tables and replicas as there may be.
REPLICAS 8;
CREATE TABLE a (c UInt64) ENGINE = ReplicatedMergeTree ORDER BY c;
@r1 INSERT INTO a VALUES (0), (10);
CREATE TABLE b (c UInt64) ENGINE = ReplicatedMergeTree ORDER BY c;
@r2 INSERT INTO b VALUES (1), (11);
CREATE TABLE c (c UInt64) ENGINE = ReplicatedMergeTree ORDER BY c;
@r3 INSERT INTO c VALUES (2), (12);
CREATE TABLE d (c UInt64) ENGINE = ReplicatedMergeTree ORDER BY c;
@r4 INSERT INTO d VALUES (3), (13);
@r8 SELECT sum(c) FROM a SYNC;
@r7 SELECT sum(c) FROM b SYNC;
@r6 SELECT sum(c) FROM c SYNC;
@r5 SELECT sum(c) FROM d SYNC;
