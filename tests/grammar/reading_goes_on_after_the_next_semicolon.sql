 
 insert t;
CREATE TABLE t (c UInt64) ENGINE = ReplicatedMergeTree ORDER BY c;
-- `insert` is followed by INTO alone; reading goes on after the next `;`.
