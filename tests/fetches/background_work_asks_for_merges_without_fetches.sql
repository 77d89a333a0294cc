-- By seeds 9 and 16 r2 asks for a merge, which r1 does by 0 and 7. By 3 and 12 r2 would fetch for both blocks.
CREATE TABLE t (c UInt64) ENGINE = ReplicatedMergeTree ORDER BY c;
@r2 SYSTEM STOP FETCHES t;
INSERT INTO t VALUES (1);
INSERT INTO t VALUES (2);
RUN t 1 SEED 9;
RUN t 1 SEED 16;
RUN t 1 SEED 0;
RUN t 1 SEED 7;
SHOW PARTS FROM t;
@r2 SHOW PARTS FROM t;
RUN t 1 SEED 9;
RUN t 1 SEED 3;
RUN t 1 SEED 12;
@r2 SHOW PARTS FROM t;
@r2 SYSTEM START FETCHES t;
RUN t 1 SEED 3;
@r2 SHOW PARTS FROM t;
