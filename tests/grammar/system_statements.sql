SYSTEM SYNC REPLICA t; SYSTEM RESTART REPLICA t; SYSTEM STOP FETCHES t; system start fetches t
-- All four are read, and find no table.
