-- Orders of a shop, taken at two replicas. A load with a row that is none is refused whole, mended and sent again. One
-- that is sent twice counts once.
CREATE TABLE orders (id UInt64, customer String, item String, cents Int64)
ENGINE = ReplicatedMergeTree ORDER BY (customer, id);

@r1 INSERT INTO orders VALUES (1, 'Ann', 'tea', 350), (2, 'Bob', 'cup', 1200), (3, 'Ann', 'pot', 'gift');
@r1 INSERT INTO orders VALUES (1, 'Ann', 'tea', 350), (2, 'Bob', 'cup', 1200), (3, 'Ann', 'pot', 0);
@r2 INSERT INTO orders VALUES (4, 'Cid', 'tea', 350), (2, 'Bob', 'cup', -1200);
@r2 INSERT INTO orders VALUES (4, 'Cid', 'tea', 350), (2, 'Bob', 'cup', -1200);

-- What the first replica took itself, and then all that was accepted.
@r1 SELECT customer, count(), sum(cents) FROM orders GROUP BY customer;
@r1 SELECT customer, count(), sum(cents) FROM orders GROUP BY customer SYNC;
@r1 SELECT id, item FROM orders WHERE customer = 'Bob' AND NOT cents < 0;
@r1 SELECT count(), min(cents), max(cents), sum(cents) FROM orders WHERE item = 'tea' OR item = 'pot' SYNC;
