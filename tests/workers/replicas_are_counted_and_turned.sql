-- REPLICAS, KILL and RESTART before there is a table.
REPLICAS 3;
KILL r2;
KILL r2;
RESTART r2;
RESTART r3;
KILL r4;
