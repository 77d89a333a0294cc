-- The number of the rule's column, divided and rounded down, is the partition.
CREATE TABLE whole (a UInt64) ENGINE = ReplicatedMergeTree ORDER BY a;
INSERT INTO whole VALUES (7);
CREATE TABLE single (a UInt64) ENGINE = ReplicatedMergeTree PARTITION BY a ORDER BY a;
INSERT INTO single VALUES (7);
CREATE TABLE tens (a UInt64) ENGINE = ReplicatedMergeTree PARTITION BY intDiv(a, 10) ORDER BY a;
INSERT INTO tens VALUES (9), (10), (18446744073709551615);
CREATE TABLE largest (a UInt64) ENGINE = ReplicatedMergeTree PARTITION BY intDiv(a, 18446744073709551615) ORDER BY a;
INSERT INTO largest VALUES (18446744073709551615);
