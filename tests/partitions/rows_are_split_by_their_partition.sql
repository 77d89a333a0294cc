-- Each block has its rows in the order in which they were offered, which the digests of parts without a key show.
CREATE TABLE tens (a UInt64) ENGINE = ReplicatedMergeTree PARTITION BY intDiv(a, 10) ORDER BY tuple();
INSERT INTO tens VALUES (75), (9), (71), (30), (2);
CHECK TABLE tens;
INSERT INTO tens FORMAT CSV
;
CREATE TABLE hundreds (a UInt64) ENGINE = ReplicatedMergeTree PARTITION BY intDiv(a, 100) ORDER BY tuple();
INSERT INTO hundreds VALUES (75), (9), (71), (30), (2);
CHECK TABLE hundreds;
CREATE TABLE whole (a UInt64) ENGINE = ReplicatedMergeTree ORDER BY tuple();
INSERT INTO whole VALUES (75), (9), (71), (30), (2);
CHECK TABLE whole;
