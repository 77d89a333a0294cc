kill r1;
Restart r1;
KILL R1;
KILL r3;
RESTART r0;
RESTART r01;
KILL t;
@r1 KILL r2;
@r2 RESTART r1;
KILL;
RESTART r1 r2;
CREATE TABLE t (c UInt64) ENGINE = ReplicatedMergeTree ORDER BY c;
KILL r2;
restart r2;
-- Keywords are read in any case and names aren't. Neither KILL nor RESTART is sent to a replica.
