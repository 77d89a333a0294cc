-- Two key columns in another order than the table's, and a mutation, at both replicas.
CREATE TABLE s (a UInt64, b String, c Int64) ENGINE = ReplicatedMergeTree ORDER BY (b, a);
INSERT INTO s VALUES (2,'y',0),(1,'y',1),(3,'x',2);
ALTER TABLE s UPDATE c = c - 2 WHERE a < 3;
@r2 CHECK TABLE s;
CHECK TABLE s;
WAIT MUTATION s 0;
CHECK TABLE s;
@r2 SYSTEM SYNC REPLICA s;
@r2 CHECK TABLE s;
