-- Background events leave a replica that is down as it is, and bring its blocks to no other one.
CREATE TABLE t (c UInt64) ENGINE = ReplicatedMergeTree ORDER BY c;
INSERT INTO t VALUES (1);
@r2 INSERT INTO t VALUES (2);
KILL r1;
RUN t 60 SEED 3;
@r2 SHOW PARTS FROM t;
RESTART r1;
SHOW PARTS FROM t;
RUN t 60 SEED 3;
SHOW PARTS FROM t;
@r2 SHOW PARTS FROM t;
