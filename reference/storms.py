"""The workload of a seed: a script that a generator draws, written apart from the crate rmt_storm.

A turn draws what it does and at which of three replicas. The generator is the one that RUN draws background events with: a step sets
x to (x * 1103515245 + 12345) mod 2^31, and a draw is x / 65536, rounded down."""

FIRST = [
    "REPLICAS 3;",
    "CREATE TABLE s (k UInt64, v UInt64) ENGINE = ReplicatedMergeTree PARTITION BY intDiv(k, 1000) ORDER BY k "
    "SETTINGS index_granularity = 16;",
]
LAST = [f"@r{replica} SELECT count(), sum(v) FROM s SYNC;" for replica in (1, 2, 3)]


class Storm:
    """A script so far: the generator's state, the last INSERT, and how many ALTERs with UPDATE or DELETE there were."""

    def __init__(self, seed):
        self.state, self.last, self.alters, self.lines = seed, None, 0, [*FIRST]

    def draw(self, below):
        self.state = (self.state * 1103515245 + 12345) % 2**31
        return self.state // 65536 % below

    def insert(self):
        partition = self.draw(4)
        rows = [(1000 * partition + self.draw(1000), self.draw(2**15)) for _ in range(1 + self.draw(8))]
        self.last = "INSERT INTO s VALUES " + ",".join(f"({key},{value})" for key, value in rows)
        return [self.last]

    def alter(self):
        kind = self.draw(8)
        if kind > 1 or self.alters >= 1000:
            return ["SELECT count() FROM s"]
        self.alters += 1
        if kind == 0:
            return [f"ALTER TABLE s UPDATE v = v + {self.draw(100)} WHERE k < {self.draw(4000)}"]
        return [f"ALTER TABLE s DELETE WHERE v < {self.draw(1000)}"]

    def settle(self):
        waits = [f"WAIT MUTATION s {self.alters - 1}"] if self.alters else []
        return [*waits, "OPTIMIZE TABLE s FINAL"]

    def other(self):
        kind = self.draw(4)
        if kind == 0:
            return [f"ALTER TABLE s DROP PARTITION {self.draw(4)}"]
        if kind == 2:
            self.lines.append(f"RUN s 20 SEED {self.draw(2**15)};")
            return []
        return ["SYSTEM RESTART REPLICA s" if kind == 1 else "SYSTEM SYNC REPLICA s"]

    def turn(self):
        kind, replica = self.draw(16), 1 + self.draw(3)
        if kind < 9:
            statements = self.insert()
        elif kind == 9:
            statements = self.alter()
        elif kind < 12:
            statements = ["SELECT count(), sum(v) FROM s SYNC"]
        elif kind < 14:
            statements = [self.last or "SHOW PARTS FROM s"]
        else:
            statements = self.settle() if kind == 14 else self.other()
        self.lines += [f"@r{replica} {statement};" for statement in statements]


def script(seed, turns):
    """The script of a seed with so many turns."""
    storm = Storm(seed)
    for _ in range(turns):
        storm.turn()
    return "".join(f"{line}\n" for line in [*storm.lines, *LAST]).encode()
