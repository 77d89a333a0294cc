-- The table is looked for before the replica.
@r9 SELECT count(), sum(c) FROM t SYNC;
