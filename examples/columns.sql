-- Columns that an INSERT leaves out get 0 or the empty String.
CREATE TABLE items (id UInt64, label String, price Int64) ENGINE = ReplicatedMergeTree ORDER BY id;
INSERT INTO items VALUES (3, 'it''s here', -1);
INSERT INTO items (price, id) VALUES (250, 1), (0, 2);
INSERT INTO items (id, label) FORMAT CSV
4,"two
lines"
5,
;
SELECT * FROM items;
SELECT count(), sum(price), min(label), max(label) FROM items WHERE price >= 0;
