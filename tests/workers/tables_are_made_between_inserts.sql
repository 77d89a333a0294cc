-- CREATE between other statements: the tables that there are keep all that they have.
CREATE TABLE t (c UInt64, s String) ENGINE = ReplicatedMergeTree ORDER BY c;
INSERT INTO t VALUES (1, 'a'), (2, 'b');
CREATE TABLE u (d UInt64) ENGINE = ReplicatedMergeTree ORDER BY d;
INSERT INTO u VALUES (7);
INSERT INTO t VALUES (1, 'a'), (2, 'b');
CREATE TABLE t (c UInt64) ENGINE = ReplicatedMergeTree ORDER BY c;
CREATE TABLE v (e String) ENGINE = ReplicatedMergeTree ORDER BY e;
CREATE TABLE w (f Int64) ENGINE = ReplicatedMergeTree ORDER BY f;
CREATE TABLE x (g Int64) ENGINE = ReplicatedMergeTree ORDER BY g;
@r2 SELECT * FROM t SYNC;
@r2 SELECT * FROM u SYNC;
@r2 SELECT * FROM w SYNC;
