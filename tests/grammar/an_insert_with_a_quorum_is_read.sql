-- The form is read to its end: the refusal is that there is no such table.
INSERT INTO t (a, b) SETTINGS insert_quorum = 2 VALUES (-1, 'it''s')(2, 'a\n'), (3, '')
