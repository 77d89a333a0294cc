-- Two shops and an office are clients of their own. A lane has what one of them sends, at its own replica.
REPLICAS 3;
CREATE TABLE sales (day UInt64, shop String, cents Int64)
ENGINE = ReplicatedMergeTree PARTITION BY day ORDER BY shop;
LANES;
-- One shop sends three sales. An answer is lost, so it sends the last one again.
LANE;
@r1 INSERT INTO sales VALUES (1, 'oslo', 500), (1, 'oslo', 250);
@r1 INSERT INTO sales VALUES (2, 'oslo', 70);
@r1 INSERT INTO sales VALUES (2, 'oslo', 70);
-- The other one sends a file, and a sale that is none. That is refused, and the lane goes on.
LANE;
@r2 INSERT INTO sales FORMAT CSV
1,rome,300
2,rome,-40
;
@r2 INSERT INTO sales VALUES (3, 'rome', 'free');
@r2 SELECT shop, sum(cents) FROM sales GROUP BY shop;
-- The office reads what both sent, corrects a mistake, and drops the first day.
LANE;
@r3 SELECT day, sum(cents) FROM sales GROUP BY day SYNC;
@r3 ALTER TABLE sales UPDATE cents = 0 WHERE cents < 0;
@r3 ALTER TABLE sales DROP PARTITION 1;
END;
-- The office's replica has the parts of both shops, and has done the drop. The first shop's replica hasn't.
@r3 SHOW PARTS FROM sales;
@r1 SHOW PARTS FROM sales;
@r1 SELECT day, shop, cents FROM sales SYNC;

-- The second shop's replica goes down. It refuses each statement of the lane, until the shop sends to another one.
KILL r2;
LANES;
LANE;
@r2 INSERT INTO sales VALUES (3, 'rome', 90);
@r2 SELECT count() FROM sales;
@r1 INSERT INTO sales VALUES (3, 'rome', 90);
LANE;
@r3 SELECT count() FROM sales SYNC;
@r3 INSERT INTO sales VALUES (3, 'rome', 90);
-- A client that sends nothing has its line.
LANE;
END;
RESTART r2;
@r2 WAIT MUTATION sales 0;
@r2 SELECT day, shop, cents FROM sales;

-- A statement that no lane may have is a fault of LANES, and none of it is played. What comes after is read as it is.
LANES;
LANE;
@r1 INSERT INTO sales VALUES (4, 'oslo', 10);
@r1 OPTIMIZE TABLE sales FINAL;
@r2 INSERT INTO sales VALUES (4, 'rome', 20);
END;
SELECT shop, cents FROM sales WHERE day = 4 SYNC;
