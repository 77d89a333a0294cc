-- What is wrong is told, changes nothing, and playing goes on.
CREATE TABLE users (id UInt64, name String, balance Int64) ENGINE = ReplicatedMergeTree ORDER BY id;
CREATE TABLE users (id UInt64) ENGINE = ReplicatedMergeTree ORDER BY id;
CREATE TABLE other (id UInt64, id String) ENGINE = ReplicatedMergeTree ORDER BY id;
CREATE TABLE other (id UInt64) ENGINE = ReplicatedMergeTree ORDER BY user;
CREATE TABLE other (id UInt64) ENGINE = ReplicatedMergeTree ORDER BY id SETTINGS index_granularity = 0;
INSERT INTO users VALUES (1, 'Ann', -5), (2, 'Bob', 'none');
INSERT INTO users VALUES (1, 'Ann', -5), (-2, 'Bob', 0);
INSERT INTO users (id, nick) VALUES (1, 'Ann');
INSERT INTO usres VALUES (1, 'Ann', -5);
@r7 INSERT INTO users VALUES (1, 'Ann', -5);
INSERT INTO users VALUES (1, 'Ann', -5);
SELECT nick FROM users;
SELECT name, sum(balance) FROM users;
SELECT sum(name) FROM users;
SELECT name FROM users WHERE id = 'Ann';
SELECT name FROM users WERE id = 1;
SELECT name, balance FROM users;
-- The table comes first, then the replica, and then what the statement says.
ALTER TABLE usres UPDATE nick = '' WHERE id = 1;
@r7 ALTER TABLE users DELETE WHERE nick = '';
ALTER TABLE usres DROP PARTITION 1;
@r7 ALTER TABLE users DROP PARTITION 1;
OPTIMIZE TABLE usres PARTITION 1 FINAL;
@r7 OPTIMIZE TABLE users PARTITION 1 FINAL;
@r7 SHOW PARTS FROM usres;
@r7 SHOW PARTS FROM users;
WAIT MUTATION usres 0;
@r7 WAIT MUTATION users 0;
SYSTEM SYNC REPLICA usres;
@r7 SYSTEM SYNC REPLICA users;
SYSTEM RESTART REPLICA usres;
@r7 SYSTEM RESTART REPLICA users;
RUN usres 1000001 SEED 1;
-- Of an UPDATE an unknown column comes before one that is set twice, and this one before types and keys.
ALTER TABLE users UPDATE name = 'Bo', balance = credit, name = 'Bob' WHERE nick = '';
ALTER TABLE users UPDATE balance = 0, name = 1, balance = 1, name = 'Bob' WHERE id = 1;
ALTER TABLE users UPDATE id = 2, balance = id WHERE id = 1;
ALTER TABLE users UPDATE balance = 0 WHERE name = 1;
ALTER TABLE users DELETE WHERE id = -1;
-- Columns of the sorting key and of the partition rule can't be set.
ALTER TABLE users UPDATE balance = 0, id = 2 WHERE id = 1;
CREATE TABLE visits (day UInt64, user UInt64) ENGINE = ReplicatedMergeTree PARTITION BY intDiv(day, 100) ORDER BY user;
ALTER TABLE visits UPDATE day = 20240131 WHERE user = 1;
-- Without a rule the partition is tuple() or ID 'all'; with one it is a number, or ID and its text.
ALTER TABLE users DROP PARTITION 1;
OPTIMIZE TABLE users PARTITION ID '1' FINAL;
ALTER TABLE visits DROP PARTITION ID '0202401';
OPTIMIZE TABLE visits PARTITION tuple() FINAL;
-- Mutations are counted from 0, and none was made. A RUN has at most 1,000,000 turns, and a seed below 2,147,483,648.
WAIT MUTATION users 0;
RUN users 1000001 SEED 1;
RUN users 1 SEED 2147483648;
-- An OPTIMIZE that is refused leaves merged what it merged: January's parts. Of February's one came after the mutation.
INSERT INTO visits VALUES (20240131, 1), (20240201, 2);
INSERT INTO visits VALUES (20240115, 3);
ALTER TABLE visits DELETE WHERE user = 9;
INSERT INTO visits VALUES (20240202, 4);
OPTIMIZE TABLE visits FINAL;
SHOW PARTS FROM visits;
WAIT MUTATION visits 1;
