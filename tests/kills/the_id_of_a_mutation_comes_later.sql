-- Whether the replica is down is looked at before the id of a mutation.
CREATE TABLE t (k UInt64, c UInt64) ENGINE = ReplicatedMergeTree ORDER BY k;
KILL r2;
@r2 WAIT MUTATION t 0;
ALTER TABLE t DELETE WHERE k = 1;
@r2 WAIT MUTATION t 0;
@r2 WAIT MUTATION t 1;
RESTART r2;
@r2 WAIT MUTATION t 1;
@r2 WAIT MUTATION t 0;
