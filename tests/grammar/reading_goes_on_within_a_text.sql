SELECT 'a;b' FROM t; KILL a
-- Reading goes on after the first semicolon from the fault on, also one within a text.
