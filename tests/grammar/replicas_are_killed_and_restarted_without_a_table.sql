-- Eight replicas, of which one is killed and restarted before there is a table.
REPLICAS 8; KILL r1; RESTART r1
