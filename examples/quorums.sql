-- A shop takes payments at three replicas, and tells a customer that one went through when two replicas have it.
REPLICAS 3;
CREATE TABLE payments (month UInt64, id UInt64, payer String, cents Int64)
ENGINE = ReplicatedMergeTree PARTITION BY month ORDER BY (payer, id);
@r1 INSERT INTO payments SETTINGS insert_quorum = 2 VALUES (1, 101, 'Ann', 350), (1, 102, 'Bob', 1200);
-- The second replica was asked for it. The third one has nothing yet, and a sequential SELECT says so.
@r2 SELECT payer, cents FROM payments SETTINGS select_sequential_consistency = 1;
@r3 SELECT payer, cents FROM payments SETTINGS select_sequential_consistency = 1;
@r3 SELECT payer, cents FROM payments;
-- A large payment is for all three. Each of the others fetches that block alone.
@r3 INSERT INTO payments (payer, cents, id, month) SETTINGS insert_quorum = 3 FORMAT CSV
Cid,250000,103,1
;
@r3 SELECT payer, cents FROM payments SETTINGS select_sequential_consistency = 1;
@r3 SYSTEM SYNC REPLICA payments;
@r3 SELECT payer, cents FROM payments SETTINGS select_sequential_consistency = 1;

-- The line to the second and the third replica is worked on, so they fetch nothing. January's rows are known already,
-- February's quorum isn't met, and March isn't tried.
@r2 SYSTEM STOP FETCHES payments;
@r3 SYSTEM STOP FETCHES payments;
@r1 INSERT INTO payments SETTINGS insert_quorum = 2
VALUES (2, 105, 'Dan', 40), (1, 101, 'Ann', 350), (3, 106, 'Eve', 65), (1, 102, 'Bob', 1200);
-- Whoever asks for a quorum now is told which part waits for its own, be his block known or not. Others go on.
@r1 INSERT INTO payments SETTINGS insert_quorum = 2 VALUES (3, 106, 'Eve', 65);
@r2 INSERT INTO payments SETTINGS insert_quorum = 2 VALUES (2, 105, 'Dan', 40);
@r2 INSERT INTO payments SETTINGS insert_quorum = 1 VALUES (2, 105, 'Dan', 40);
@r1 INSERT INTO payments VALUES (3, 106, 'Eve', 65);
-- There can be no quorum of four. What an INSERT says is looked at before that.
@r1 INSERT INTO payments SETTINGS insert_quorum = 4 VALUES (3, 107, 'Fay', 15);
@r1 INSERT INTO payments SETTINGS insert_quorum = 4 VALUES (3, 107, 'Fay', 'gift');
@r1 INSERT INTO payments SETTINGS insert_quorum = 4294967296 VALUES (3, 107, 'Fay', 'gift');
@r1 INSERT INTO payments (month, id, name) SETTINGS insert_quorum = 4294967296 VALUES (3, 107, 'Fay');

-- The report leaves out what the customer wasn't told yet, which is Dan's payment, and has Eve's, for which nobody
-- asked more. Others read all that is there.
@r1 SELECT payer, cents FROM payments WHERE month > 1 SETTINGS select_sequential_consistency = 1;
@r1 SELECT payer, cents FROM payments WHERE month > 1 SETTINGS select_sequential_consistency = 0;
@r1 SELECT payer, cents FROM payments WHERE month > 1 SYNC;
@r1 SELECT payer, cents FROM payments SETTINGS select_sequential_consistency = 2;
-- The part that waits isn't merged with its neighbour. It is mutated, and waits on.
@r1 INSERT INTO payments VALUES (2, 108, 'Gus', 70);
@r1 OPTIMIZE TABLE payments FINAL;
@r1 ALTER TABLE payments UPDATE cents = 45 WHERE id = 105;
@r1 WAIT MUTATION payments 0;
@r1 SELECT payer, cents FROM payments WHERE month = 2;
@r1 SELECT payer, cents FROM payments WHERE month = 2 SETTINGS select_sequential_consistency = 1;

-- The first replica goes down, which alone has the block. It has noted it, and counts when it isn't there.
@r2 SYSTEM START FETCHES payments;
KILL r1;
@r2 SYSTEM SYNC REPLICA payments;
@r2 INSERT INTO payments SETTINGS insert_quorum = 3 VALUES (3, 107, 'Fay', 15);
@r2 INSERT INTO payments SETTINGS insert_quorum = 2 VALUES (3, 107, 'Fay', 15);
RESTART r1;
@r2 SYSTEM SYNC REPLICA payments;
-- With the second replica the quorum is met, and Dan is told. The INSERT that was refused is sent once more, whole.
@r1 INSERT INTO payments SETTINGS insert_quorum = 2
VALUES (2, 105, 'Dan', 40), (1, 101, 'Ann', 350), (3, 106, 'Eve', 65), (1, 102, 'Bob', 1200);
@r2 SELECT payer, cents FROM payments WHERE month > 1 SETTINGS select_sequential_consistency = 1;
@r2 OPTIMIZE TABLE payments FINAL;
-- The third one has to fetch it first. In background work it does.
@r3 SELECT count() FROM payments SETTINGS select_sequential_consistency = 1;
@r3 SYSTEM START FETCHES payments;
RUN payments 300 SEED 8;
@r3 SELECT count() FROM payments SETTINGS select_sequential_consistency = 1;

-- A payment of April was a mistake, and waits at the first replica. Its partition is dropped, and with it the wait.
@r2 SYSTEM STOP FETCHES payments;
@r3 SYSTEM STOP FETCHES payments;
@r1 INSERT INTO payments SETTINGS insert_quorum = 2 VALUES (4, 109, 'Hal', -5);
@r1 ALTER TABLE payments DROP PARTITION 4;
@r2 SYSTEM START FETCHES payments;
@r1 INSERT INTO payments SETTINGS insert_quorum = 2 VALUES (4, 109, 'Hal', 5);
@r2 SELECT payer, cents FROM payments WHERE month = 4 SETTINGS select_sequential_consistency = 1;
-- When April is dropped there is no last quorum part any more: each replica is as good as another.
@r3 SELECT count() FROM payments SETTINGS select_sequential_consistency = 1;
@r1 ALTER TABLE payments DROP PARTITION 4;
@r3 SELECT count() FROM payments SETTINGS select_sequential_consistency = 1;
