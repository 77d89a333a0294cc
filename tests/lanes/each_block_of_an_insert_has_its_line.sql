-- An INSERT in a lane replies as elsewhere: a line for each block in the order of partitions, or nothing.
CREATE TABLE p (k UInt64, s String) ENGINE = ReplicatedMergeTree PARTITION BY intDiv(k, 10) ORDER BY k;
LANES;
LANE;
INSERT INTO p VALUES (31,'a'), (12,'b'), (5,'c'), (13,'d');
@r2 INSERT INTO p FORMAT CSV
12,b
7,e
13,d
;
LANE;
INSERT INTO p FORMAT CSV
;
INSERT INTO TABLE p (k) VALUES (40), (31);
END;
@r2 SELECT s, count() FROM p GROUP BY s SYNC;
