"""A table at its replicas, written from its description and not from the program: the log of what was done to the
table, its quorum, and of each replica how much of the log it has copied, which of these entries it has done, its active
parts, and whether it fetches. What a log says is read off it from its start each time, so this is slow. Statements come
one after the other, so that no INSERT is half done when another statement begins, or when a replica goes down."""
import hashlib
from collections import namedtuple

# the limits: partitions of a table, numbers of a partition; of a table its mutations, entries of clients and entries of
# background work, and values in accepted blocks
PARTITIONS, NUMBERS, MUTATIONS, CLIENT_ENTRIES, WORKER_ENTRIES, VALUES = 1024, 65536, 1024, 32768, 32768, 8388608


class Refusal(Exception):
    """Why something isn't done: the number and the name of the refusal, and what is kept. With 0 it is one of a
    background event, and no statement is refused so."""

    def __init__(self, number, name, *kept):
        kept = [text(each) if isinstance(each, Name) else each for each in kept]
        kept = [each if isinstance(each, bytes) else str(each).encode() for each in kept]
        self.line = b" ".join([b"refused %d %s" % (number, name.encode())] + kept)


# ---- logs: lists of entries, of which each has a place, from 0 on


# the name of a part; its partition is a number, or None where the table has no rule; a mutation of 0 is none
Name = namedtuple("Name", "partition min max level mutation")

# what a log has: a block, its number and the replica that took it; a merge of parts; a part put through the mutations
# up to a place; a command, with the number that it took in each partition there was; and a drop of a partition's blocks
# below a number
Get = namedtuple("Get", "partition number source rows")
Merge = namedtuple("Merge", "sources name")
Mutate = namedtuple("Mutate", "old name upto")
Mutation = namedtuple("Mutation", "numbers command")
Drop = namedtuple("Drop", "partition number")


def replica_text(at):
    return b"r%d" % (at + 1)


def partition_text(partition):
    return b"all" if partition is None else b"%d" % partition


def text(name):
    numbers = b"%s_%d_%d_%d" % (partition_text(name.partition), name.min, name.max, name.level)
    return numbers + (b"_%d" % name.mutation if name.mutation else b"")


def covers(name, other):
    is_around = name.partition == other.partition and name.min <= other.min and name.max >= other.max
    return is_around and name.level >= other.level and name.mutation >= other.mutation


def result(entry):
    """The name of the part that an entry makes, if it makes one."""
    if isinstance(entry, Get):
        return Name(entry.partition, entry.number, entry.number, 0, 0)
    return entry.name if isinstance(entry, (Merge, Mutate)) else None


def takes(drop, name):
    return drop.partition == name.partition and name.max <= drop.number


def live(log):
    """The names that stand at the end of a log, in order of partition and number."""
    names = set()
    for entry in log:
        if isinstance(entry, Merge):
            names -= set(entry.sources)
        if isinstance(entry, Mutate):
            names.remove(entry.old)
        if isinstance(entry, Drop):
            names = {name for name in names if not takes(entry, name)}
        if result(entry) is not None:
            names.add(result(entry))
    return sorted(names)


def version(log, name):
    """The last mutation that the part has gone through: the greatest number that one took in its partition and that
    isn't above the number of its own mutation, or of its first block where it has none."""
    numbers = [entry.numbers.get(name.partition, 0) for entry in log if isinstance(entry, Mutation)]
    return max([number for number in numbers if number <= (name.mutation or name.min)], default=0)


def pending(log, name, below):
    """The places below one of the mutations that the name still has to go through."""
    have, places = version(log, name), []
    for place, entry in enumerate(log[:below]):
        if isinstance(entry, Mutation) and entry.numbers.get(name.partition, 0) > have:
            places.append(place)
    return places


def is_dropped(log, place, name):
    """Whether a drop after the place takes the name away."""
    return any(isinstance(entry, Drop) and takes(entry, name) for entry in log[place + 1 :])


def merged(names):
    """The name of the part that neighbours are merged into."""
    level, mutation = max(name.level for name in names), max(name.mutation for name in names)
    return Name(names[0].partition, names[0].min, names[-1].max, level + 1, mutation)


def first_apart(log, quorum, names):
    """The first two neighbours among the names that aren't merged, if there are such: they don't have the same
    mutations, or one of them covers the pending part."""
    for pair in zip(names, names[1:]):
        if version(log, pair[0]) != version(log, pair[1]) or quorum.is_pending_in(pair):
            return pair
    return None


def chosen(log):
    """The live names that background work merges, if any: of the runs of neighbours of one partition that have the same
    mutations, each as long as may be but of at most 10 names, the first of those whose greatest level is the least."""
    names, runs = live(log), []
    kinds = [(name.partition, version(log, name)) for name in names]
    for first in range(len(names)):
        end = first + 1
        while end < len(names) and end < first + 10 and kinds[end] == kinds[first]:
            end += 1
        if end > first + 1:
            runs.append(names[first:end])
    return min(runs, key=lambda run: max(name.level for name in run), default=None)


def next_to_mutate(log, below):
    """The first live name that has to go through mutations below a place, and the place of the last of them, if any."""
    for name in live(log):
        places = pending(log, name, below)
        if places:
            return name, places[-1]
    return None


# ---- quorums


class Quorum:
    """Of the quorum inserts of a table: the part that is pending until so many replicas as it needs have noted it, and
    those that have; and the last part whose quorum was met. Each part is None where there is none."""

    def __init__(self):
        self.pending, self.need, self.noted, self.last = None, 0, set(), None

    def begin(self, name, need):
        self.pending, self.need, self.noted = name, need, set()

    def is_pending_in(self, names):
        """Whether one of the names covers the pending part."""
        return self.pending is not None and any(covers(name, self.pending) for name in names)

    def note(self, at):
        """Counts a replica among those that have noted the pending part."""
        self.noted.add(at)
        if len(self.noted) == self.need:
            self.pending, self.last = None, self.pending

    def drop(self, drop):
        """Forgets each of the two parts that a drop takes away."""
        self.pending = None if self.pending is not None and takes(drop, self.pending) else self.pending
        self.last = None if self.last is not None and takes(drop, self.last) else self.last


# ---- bytes


TYPES = {"UInt64": b"\1", "Int64": b"\2", "String": b"\3"}


def number_bytes(length, *numbers):
    return b"".join(number.to_bytes(length, "big") for number in numbers)


def value_bytes(kind, value):
    if kind == "String":
        return number_bytes(2, len(value)) + value
    return number_bytes(8, value % 2**64)


# ---- replicas


# an active part: the place of the entry that made it, and its rows in the order of the sorting key
Part = namedtuple("Part", "place rows")


class Replica:
    """How many entries of the log were copied, and for each of these whether it is done; the active parts by name; and
    the blocks that are staged, by partition and number."""

    def __init__(self):
        self.log, self.done, self.parts, self.staged = [], [], {}, {}


class Draws:
    """Numbers from 0 to 32767, drawn from a seed."""

    def __init__(self, seed):
        self.state = seed

    def draw(self, below):
        self.state = (self.state * 1103515245 + 12345) % 2**31
        return self.state // 65536 % below


class Table:
    """The log; the next number of each partition that there is; how many values are held; the quorum; the replicas, the
    places of those that have fetches stopped, and of those that are down, which all tables share."""

    def __init__(self, columns, rule, key, granularity, window, replicas, down):
        self.columns, self.rule, self.key, self.granularity, self.window = columns, rule, key, granularity, window
        self.kinds = dict(columns)
        self.places = {name: place for place, (name, _) in enumerate(columns)}
        self.log, self.next, self.values, self.quorum = [], {}, 0, Quorum()
        self.replicas, self.stopped, self.down = [Replica() for _ in range(replicas)], set(), down

    # ---- rows

    def value(self, row, column):
        return row[self.places[column]]

    def split(self, rows):
        """The partitions of the rows, in order, each with its rows in the order in which they were offered."""
        partitions = {}
        for row in rows:
            partition = None if self.rule is None else self.value(row, self.rule[0]) // self.rule[1]
            partitions.setdefault(partition, []).append(row)
        return sorted(partitions.items())

    def in_key_order(self, rows):
        return sorted(rows, key=lambda row: [self.value(row, name) for name in self.key])

    def changed(self, rows, places):
        """The rows after the mutations at these places of the log, one after the other."""
        for place in places:
            rows = [row for row in map(self.log[place].command.changed, rows) if row is not None]
        return rows

    def plain_rows(self):
        """The rows of all blocks that no drop takes away, each block after the mutations of a greater number."""
        rows = []
        for place, entry in enumerate(self.log):
            if isinstance(entry, Get) and not is_dropped(self.log, place, result(entry)):
                rows += self.changed(entry.rows, pending(self.log, result(entry), len(self.log)))
        return rows

    def part_bytes(self, rows):
        """A part in bytes: its columns, key and lengths; its values, granule by granule and in each column by column;
        the key of each granule's first row; and the digest of all this."""
        granules = [rows[first : first + self.granularity] for first in range(0, len(rows), self.granularity)]
        lists = [b"RMTPART1" + number_bytes(2, len(self.columns))]
        lists += [TYPES[kind] + number_bytes(2, len(name)) + name for name, kind in self.columns]
        lists += [number_bytes(2, len(self.key), *(self.places[name] for name in self.key))]
        lists += [number_bytes(4, self.granularity, len(rows), len(granules))]
        for granule in granules:
            lists += [value_bytes(kind, self.value(row, name)) for name, kind in self.columns for row in granule]
        for granule in granules:
            lists += [value_bytes(self.kinds[name], self.value(granule[0], name)) for name in self.key]
        bytes_ = b"".join(lists)
        return bytes_ + hashlib.sha256(bytes_).digest()

    # ---- what clients do

    def count(self, *kinds):
        return sum(isinstance(entry, kinds) for entry in self.log)

    def check_client_entries(self):
        count = self.count(Get, Mutation, Drop)
        if count == CLIENT_ENTRIES:
            raise Refusal(18, "LimitReached", "client_entries", count)

    def kept(self):
        """The blocks whose ids are kept: of those accepted last as many as the window says, without those that were
        dropped since."""
        kept = []
        for entry in self.log:
            if isinstance(entry, Get):
                kept.append(entry)
                del kept[: max(0, len(kept) - self.window)]
            if isinstance(entry, Drop):
                kept = [block for block in kept if not takes(entry, result(block))]
        return kept

    def take_number(self, partition):
        number = self.next.get(partition, 0)
        if partition not in self.next and len(self.next) == PARTITIONS:
            raise Refusal(18, "LimitReached", "partitions", len(self.next))
        if number == NUMBERS:
            raise Refusal(18, "LimitReached", "numbers", number)
        self.check_client_entries()
        self.next[partition] = number + 1
        return number

    def check_quorum(self, need):
        """Refuses a block that so many replicas should have, where fewer are up or another part is pending."""
        live = len(self.replicas) - len(self.down)
        if live < need:
            raise Refusal(12, "TooFewLive", live, need)
        if self.quorum.pending is not None:
            raise Refusal(13, "QuorumPending", self.quorum.pending)

    def insert(self, at, partition, rows, need):
        """What a block is answered that is inserted at a replica, with a quorum where it needs two replicas or more.
        Two blocks have one id where they have the same rows in the same order in the same partition."""
        if need > 1:
            self.check_quorum(need)
        for block in self.kept():
            if (block.partition, block.rows) == (partition, rows):
                return b"duplicate " + text(result(block))
        number, values = self.take_number(partition), len(rows) * len(self.columns)
        if self.values + values > VALUES:
            raise Refusal(18, "LimitReached", "values", self.values)
        self.values += values
        self.replicas[at].staged[partition, number] = rows
        self.log.append(Get(partition, number, at, rows))
        name = result(self.log[-1])
        self.pull(at)
        self.apply(at, len(self.log) - 1)
        if need > 1:
            self.quorum.begin(name, need)
            self.meet(at)
        return b"part " + text(name)

    def meet(self, at):
        """Has the part of the last entry noted: by the replica that took the block, and then by the other ones that are
        up and fetch, each of which does that entry, until the quorum is met."""
        self.note(at)
        for other in range(len(self.replicas)):
            if self.quorum.pending is not None and other not in {at} | self.down | self.stopped:
                self.pull(other)
                self.apply(other, len(self.log) - 1)
                self.note(other)
        if self.quorum.pending is not None:
            raise Refusal(15, "QuorumUnmet", len(self.quorum.noted), self.quorum.need)

    def alter(self, command):
        """The id of a new mutation, which takes a number in each partition."""
        id_ = self.count(Mutation)
        if id_ == MUTATIONS:
            raise Refusal(18, "LimitReached", "mutations", id_)
        if NUMBERS in self.next.values():
            raise Refusal(18, "LimitReached", "numbers", NUMBERS)
        self.check_client_entries()
        self.log.append(Mutation(dict(self.next), command))
        self.next = {partition: number + 1 for partition, number in self.next.items()}
        return id_

    def drop(self, at, partition):
        """The number below which a partition's blocks are dropped at a replica; 0 where there is no such partition."""
        if partition not in self.next:
            return 0
        number = self.take_number(partition)
        self.log.append(Drop(partition, number))
        self.quorum.drop(self.log[-1])
        self.pull(at)
        self.apply(at, len(self.log) - 1)
        return number

    # ---- what replicas do

    def pull(self, at):
        replica = self.replicas[at]
        replica.done += [False] * (len(self.log) - len(replica.log))
        replica.log = list(self.log)
        return len(self.log)

    def apply(self, at, place):
        """Does an entry of the replica's copy, and tells what came of it."""
        replica = self.replicas[at]
        entry, came = replica.log[place], "installed"
        name = result(entry)
        is_covered = name is not None and any(covers(other, name) for other in replica.parts)
        if replica.done[place] or isinstance(entry, Mutation) or is_covered:
            came = "already"
        elif name is not None and is_dropped(replica.log, place, name):
            came = "dropped"
        elif isinstance(entry, Drop):
            parts = replica.parts.items()
            replica.parts = {n: part for n, part in parts if not (takes(entry, n) and part.place < place)}
        else:
            name, part = self.supply(at, place)
            replica.parts = {n: other for n, other in replica.parts.items() if not covers(name, n)}
            replica.parts[name] = part
        replica.done[place] = True
        if isinstance(entry, Get):
            replica.staged.pop((entry.partition, entry.number), None)
        return came

    def supply(self, at, place):
        """The part by which an entry is done at a replica, with its name."""
        replica, entry = self.replicas[at], self.replicas[at].log[place]
        if isinstance(entry, Get):
            return self.block(at, place)
        for source in entry.sources if isinstance(entry, Merge) else [entry.old]:
            if source not in replica.parts:
                raise Refusal(0, "NeedsPart", source)
        if isinstance(entry, Merge):
            rows = [row for source in entry.sources for row in replica.parts[source].rows]
        else:
            rows = self.changed(replica.parts[entry.old].rows, pending(replica.log, entry.old, entry.upto + 1))
        return entry.name, Part(place, self.in_key_order(rows))

    def block(self, at, place):
        """That of a block: it is staged at the replica, or else fetched."""
        replica, entry = self.replicas[at], self.replicas[at].log[place]
        name, staged = result(entry), (entry.partition, entry.number)
        if staged in replica.staged:
            return name, Part(place, self.in_key_order(replica.staged[staged]))
        held = self.held(at, place)
        if held is None:
            raise Refusal(19, "NoSource", name, replica_text(entry.source))
        if at in self.stopped:
            raise Refusal(0, "FetchesStopped", replica_text(at))
        return held

    def held(self, at, place):
        """What there is of a block to fetch, if anything, at the first other replica that is up and has it, in a part
        that was made within the fetching replica's copy of the log, or staged."""
        replica, entry = self.replicas[at], self.replicas[at].log[place]
        name, staged = result(entry), (entry.partition, entry.number)
        for other in [other for number, other in enumerate(self.replicas) if number not in {at} | self.down]:
            for around, part in other.parts.items():
                if covers(around, name) and part.place < len(replica.log):
                    return around, part
            if staged in other.staged:
                return name, Part(place, self.in_key_order(other.staged[staged]))
        return None

    def drain(self, at):
        """Brings a replica to the whole log, every entry of it done, the earlier ones first, and then has the
        pending part noted. It stops at a block that no replica has which is up; the one that took it is down then."""
        self.pull(at)
        for place, is_done in enumerate(self.replicas[at].done):
            if not is_done:
                self.apply(at, place)
        self.note(at)

    def note(self, at):
        """Has the pending part noted by a replica, where that has it."""
        if self.quorum.is_pending_in(self.replicas[at].parts):
            self.quorum.note(at)

    def restart(self, at):
        """Ends a replica's session, and begins another one: each entry is looked at again."""
        self.replicas[at].done = [False] * len(self.replicas[at].log)

    def read(self, at):
        """The active parts of a replica and their names, in order of partition and number."""
        return sorted(self.replicas[at].parts.items())

    def read_in_quorum(self, at):
        """What a sequential SELECT reads: the active parts without what covers the pending one. One of them has to
        cover the last one."""
        last, parts = self.quorum.last, self.read(at)
        if last is not None and not any(covers(name, last) for name, _ in parts):
            raise Refusal(14, "NotInQuorum", last)
        return [(name, part) for name, part in parts if not self.quorum.is_pending_in([name])]

    def synced_rows(self, at):
        """The rows of a replica's active parts, each part's after all mutations that it still has to go through."""
        parts = self.read(at)
        return [row for name, part in parts for row in self.changed(part.rows, pending(self.log, name, len(self.log)))]

    # ---- background work

    def work(self, at, entry):
        """Appends an entry that a replica asks for, which must have copied the whole log, and gives its place."""
        seen, count = len(self.replicas[at].log), self.count(Merge, Mutate)
        if seen < len(self.log):
            raise Refusal(0, "LogMoved", seen, len(self.log))
        pair = first_apart(self.log, self.quorum, entry.sources) if isinstance(entry, Merge) else None
        if pair is not None:
            raise Refusal(16, "Unmergeable", *pair)
        if count == WORKER_ENTRIES:
            raise Refusal(18, "LimitReached", "worker_entries", count)
        self.log.append(entry)
        return len(self.log) - 1

    def merge(self, at, names):
        return self.work(at, Merge(names, merged(names)))

    def mutate(self, at, name, upto):
        number = self.replicas[at].log[upto].numbers[name.partition]
        return self.work(at, Mutate(name, name._replace(mutation=number), upto))

    def turn(self, draws):
        """The next background event: what is done, at which replica, and with what."""
        kind, at = draws.draw(8), draws.draw(len(self.replicas))
        replica = self.replicas[at]
        if kind in (2, 3, 4):
            waiting = [place for place, is_done in enumerate(replica.done) if not is_done]
            if waiting:
                return "apply", at, waiting[draws.draw(len(waiting))]
        if kind == 5:
            names = chosen(replica.log)
            if names is not None:
                return "merge", at, names
        if kind == 6:
            next_ = next_to_mutate(replica.log, len(replica.log))
            if next_ is not None:
                return "mutate", at, *next_
        return ("restart" if kind == 7 and at not in self.down else "pull"), at

    def run(self, turns, draws):
        """Makes so many background events, and gives each with what came of it. One that is refused is one of them, as
        each is that is drawn for a replica which is down. After one by which a replica has the pending part, that
        replica is noted."""
        for _ in range(turns):
            event = self.turn(draws)
            replica = self.replicas[event[1]]
            had_pending = self.quorum.is_pending_in(replica.parts)
            try:
                if event[1] in self.down:
                    raise Refusal(0, "Down")
                came = getattr(self, event[0])(*event[1:])
            except Refusal as refusal:
                came = refusal.line
            yield event, came
            if not had_pending and self.quorum.is_pending_in(replica.parts):
                yield ("note", event[1]), self.note(event[1])
