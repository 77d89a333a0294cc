-- Stopped fetches come before a mutation that there isn't.
CREATE TABLE t (c UInt64) ENGINE = ReplicatedMergeTree ORDER BY c;
@r2 SYSTEM STOP FETCHES t;
@r2 WAIT MUTATION t 0;
WAIT MUTATION t 0;
@r2 SYSTEM START FETCHES t;
@r2 WAIT MUTATION t 0;
