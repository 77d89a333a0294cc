-- Rows of CSV, or the first bad one. A blank line is no row, and a field has no blank before a number.
CREATE TABLE t (a UInt64, b Int64, c String) ENGINE = ReplicatedMergeTree ORDER BY tuple();
INSERT INTO t FORMAT CSV
1,-2,"x;"

2,0,y
;
SELECT * FROM t SYNC;
ALTER TABLE t DROP PARTITION tuple();
INSERT INTO t (a) FORMAT CSV
1
 2
;
INSERT INTO t (a) FORMAT CSV
0000000000000000000000000000000000000001
;
INSERT INTO t (a) FORMAT CSV
1
1,2
;
INSERT INTO t (a, b) FORMAT CSV
1,2
1
;
INSERT INTO t FORMAT CSV
