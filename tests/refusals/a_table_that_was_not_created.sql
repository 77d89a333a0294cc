-- There is no table yet.
SELECT count(), sum(c) FROM t SYNC;
