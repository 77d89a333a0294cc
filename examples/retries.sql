-- Payments taken at three replicas. An INSERT whose answer was lost is sent again, and what was accepted counts once.
REPLICAS 3;
CREATE TABLE payments (month UInt64, id UInt64, payer String, cents Int64)
ENGINE = ReplicatedMergeTree PARTITION BY month ORDER BY (payer, id);

@r1 INSERT INTO payments VALUES (1, 101, 'Ann', 350), (1, 102, 'Bob', 1200);
-- The answer was lost, and r1 can't be asked. The same rows in the same order are known at every replica, in whatever
-- form they are sent.
@r2 INSERT INTO payments (payer, id, cents, month) FORMAT CSV
Ann,101,0350,1
Bob,102,1200,1
;
@r3 SELECT payer, count(), sum(cents) FROM payments GROUP BY payer SYNC;
-- The second replica took nothing, and has nothing yet.
@r2 SELECT count() FROM payments;

-- Two months in one INSERT are two blocks. That of January was accepted before, that of February is new.
@r2 INSERT INTO payments VALUES (2, 104, 'Ann', 80), (1, 101, 'Ann', 350), (2, 103, 'Cid', 500), (1, 102, 'Bob', 1200);
@r2 SELECT * FROM payments;
-- Sent once more both are known.
@r3 INSERT INTO payments VALUES (2, 104, 'Ann', 80), (1, 101, 'Ann', 350), (2, 103, 'Cid', 500), (1, 102, 'Bob', 1200);
-- February's rows in another order are another block, and counted again; so are January's with one more.
@r1 INSERT INTO payments VALUES (2, 103, 'Cid', 500), (2, 104, 'Ann', 80);
@r1 INSERT INTO payments VALUES (1, 101, 'Ann', 350), (1, 102, 'Bob', 1200), (1, 105, 'Dan', 1);
@r1 SELECT month, count(), sum(cents) FROM payments GROUP BY month SYNC;
-- An INSERT that is refused leaves nothing behind to be known by.
@r1 INSERT INTO payments VALUES (3, 106, 'Ann', 7), (3, 107, 'Bob', 'gift');
@r1 INSERT INTO payments VALUES (3, 106, 'Ann', 7);
