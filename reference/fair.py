"""Whether an output is one that a script may have among workers: threads that merge, mutate and fetch in the background
while its statements go on, one after the other, and those of lanes so too (`unfair`). The statements are played as in
play.py, by tables of which only that is kept which the clients determine: the log without merges and mutations of
parts, the next numbers, which replicas are up, which fetch. Where a reply depends on workers it is read from the
output, and tested against what is known by then:

- of each table the names of parts that merges and mutations of parts have made, as far as replies tell of them;
- of each replica what a part that it reads has to cover, which drops it has done, and which blocks it may have;
- the states that the quorum may be in.

Which neighbours workers merge, how many at once, which mutations they put a part through and when is left open. Most
of what is tested is in the definitions that the proof is about: lawful logs, fair names, what is known at a replica.
These say less than the guide does of what workers may not do, and here the guide holds: nothing merges a part that
waits for its quorum; a replica is noted for it that has it, and no other one; and a replica has a block that was
accepted elsewhere only if it fetched since, from a replica that was up then."""
import itertools
import re
from collections import namedtuple

import cluster
import play
from cluster import Drop, Get, Mutation, Name, Part, Refusal, covers, result, takes, text, version

NAME = re.compile(rb"(all|\d{1,20})_(\d{1,10})_(\d{1,10})_(\d{1,10})(?:_(\d{1,10}))?")


class Unfair(Exception):
    """Why a reply is none that a statement may have, with the names and lines of output that it tells of."""

    def __init__(self, why, *told):
        told = [text(each) if isinstance(each, Name) else each for each in told]
        super().__init__(why.format(*("'" + each[:200].decode(errors="replace") + "'" for each in told)))


# ---- names of parts


def name_in(word):
    """The name that a word of the output says."""
    found = NAME.fullmatch(word)
    if found is None:
        raise Unfair("{} is no name of a part", word)
    partition, *numbers = found.groups()
    name = Name(None if partition == b"all" else int(partition), *(int(number or 0) for number in numbers))
    if text(name) != word:
        raise Unfair("{} isn't how the name of a part is written", word)
    return name


def block_of(partition, number):
    return Name(partition, number, number, 0, 0)


def span(name):
    return name.partition, name.min, name.max


def is_before(name, other):
    rank, next_rank = (-1 if each.partition is None else each.partition for each in (name, other))
    return (rank, name.max) < (next_rank, other.min)


def is_around(name, other):
    return name.partition == other.partition and name.min <= other.min and other.max <= name.max


def overlap(name, other):
    return name.partition == other.partition and name.min <= other.max and other.min <= name.max


def may_both_be(name, other):
    """Whether one log may have made both. Where they share a block the one that is made later covers the other, has a
    higher level if it has more blocks, and else the same level."""
    if not overlap(name, other) or name == other:
        return True
    if span(name) == span(other):
        return name.level == other.level
    inner, outer = sorted((name, other), key=lambda each: each.max - each.min)
    return is_around(outer, inner) and inner.level < outer.level and inner.mutation <= outer.mutation


# ---- quorums


# a part that waits, how many replicas it needs, and those that have noted it whatever workers did
Waiting = namedtuple("Waiting", "part need noted")


class Quorums:
    """The states that a table's quorum may be in, as far as the replies tell: of each what waits and the last part
    whose quorum was met, or None for either. Workers note replicas at any time, and so a state in which a part waits
    may be followed by the one in which its quorum is met, with no statement between them."""

    def __init__(self):
        self.states = {(None, None)}

    def keep(self, test, why, *told):
        """Leaves the states out for which the test doesn't hold of what waits and the last part."""
        self.states = {state for state in self.states if test(*state)}
        if not self.states:
            raise Unfair(why, *told)

    def change(self, view):
        self.states = {view(*state) for state in self.states}

    def begin(self, part, need):
        self.change(lambda waiting, last: (Waiting(part, need, frozenset()), last))

    def note(self, replicas):
        def noted(waiting, last):
            if waiting is None:
                return waiting, last
            waiting = waiting._replace(noted=waiting.noted | replicas)
            return (None, waiting.part) if len(waiting.noted) >= waiting.need else (waiting, last)

        self.change(noted)

    def rest(self, holders):
        """Adds the states in which workers have noted enough of the replicas that may have what waits."""
        for waiting, _ in list(self.states):
            if waiting is not None and len(waiting.noted | holders(waiting.part)) >= waiting.need:
                self.states.add((None, waiting.part))

    def drop(self, drop):
        self.change(lambda waiting, last: (
            None if waiting is not None and takes(drop, waiting.part) else waiting,
            None if last is not None and takes(drop, last) else last,
        ))  # fmt: skip


# ---- tables


class Replica(cluster.Replica):
    """The names that what it reads has to cover; the drops that it has done; and the blocks that it may have."""

    def __init__(self):
        super().__init__()
        self.known, self.drops, self.held = set(), set(), set()


class Table(cluster.Table):
    """A table whose log has the entries of its clients alone. A fact is a name that some part covers which was made,
    with the length that this log had by then; there are facts of what no drop takes away. `made` has the names that
    replies told of, just as they are, dropped ones too, and `numbers` the rows of the blocks by partition and number.
    What clients do is as in cluster.Table, but for what comes of it at the replicas."""

    def __init__(self, world, *said):
        super().__init__(*said)
        self.world, self.quorum, self.replicas = world, Quorums(), [Replica() for _ in self.replicas]
        self.numbers, self.facts, self.made, self.contents = {}, {}, {}, {}

    def rest(self):
        """Whatever workers may have done by now: each replica that is up and fetches may have all that one has which is
        up, and what waits for its quorum may have been noted by all that may have it."""
        up = [replica for at, replica in enumerate(self.replicas) if at not in self.down]
        blocks = set().union(*(replica.held for replica in up))
        for at, replica in enumerate(self.replicas):
            if at not in self.down | self.stopped:
                replica.held |= blocks
        self.quorum.rest(lambda part: {at for at, replica in enumerate(self.replicas) if part in replica.held})

    def add_fact(self, name, length):
        if all(number < name.min for number in self.drops_of(name.partition)):
            self.facts.setdefault(name, length)

    def drops_of(self, partition):
        return [entry.number for entry in self.log if isinstance(entry, Drop) and entry.partition == partition]

    def mutations_of(self, partition):
        """The places of the mutations that took a number in a partition, by number."""
        mutations = [(place, entry) for place, entry in enumerate(self.log) if isinstance(entry, Mutation)]
        return {entry.numbers[partition]: place for place, entry in mutations if partition in entry.numbers}

    def numbers_in(self, partition, low=0, high=cluster.NUMBERS):
        """The numbers of the accepted blocks of a partition within bounds."""
        return [number for number in self.numbers.get(partition, {}) if low <= number <= high]

    def live_numbers(self, partition):
        """Those that no drop takes away."""
        return self.numbers_in(partition, max(self.drops_of(partition), default=0))

    def content(self, name):
        """The rows of a part of this name: each block's after the mutations from its number to that of the name."""
        if name not in self.contents:
            rows, mutations = [], self.mutations_of(name.partition)
            for number in self.numbers_in(*span(name)):
                places = [place for taken, place in mutations.items() if number < taken <= name.mutation]
                rows += self.changed(self.numbers[name.partition][number], places)
            self.contents[name] = self.in_key_order(rows)
        return self.contents[name]

    # ---- what clients do

    def check_quorum(self, need):
        """A block that asks for a quorum: whether an earlier part waits still is for the reply to tell."""
        live = len(self.replicas) - len(self.down)
        if live < need:
            raise Refusal(12, "TooFewLive", live, need)
        self.rest()
        is_refused = self.world.next_line().startswith(b"refused 13 ")
        why = "no part waits for its quorum" if is_refused else "a part waits for its quorum"
        self.quorum.keep(lambda waiting, last: (waiting is not None) == is_refused, why)
        for waiting, _ in self.quorum.states:
            if waiting is not None:
                raise Refusal(13, "QuorumPending", waiting.part)

    def meet(self, at):
        """All replicas that are up and fetch are asked for a copy of the last block, until it has as many as it needs.
        No other one can have it yet, so that workers change nothing of the reply. Where more could be asked than it
        needs, it is open which have it."""
        (need,) = {waiting.need for waiting, _ in self.quorum.states}
        asked = {at} | set(range(len(self.replicas))) - self.down - self.stopped
        self.quorum.note(frozenset(asked))
        for other in asked if len(asked) <= need else []:
            self.apply(other, len(self.log) - 1)
        if len(asked) < need:
            raise Refusal(15, "QuorumUnmet", len(asked), need)

    def pull(self, at):
        pass

    def apply(self, at, place):
        """An entry of a client is known at a replica."""
        replica, entry = self.replicas[at], self.log[place]
        if isinstance(entry, Get):
            name = result(entry)
            self.numbers.setdefault(entry.partition, {})[entry.number] = entry.rows
            self.add_fact(name, place + 1)
            replica.known.add(name)
            replica.held.add(name)
        else:
            replica.drops.add(entry)
            self.facts = {name: length for name, length in self.facts.items() if not takes(entry, name)}
            for other in self.replicas:
                other.known = {name for name in other.known if not takes(entry, name)}

    def restart(self, at):
        pass

    def run(self, turns, draws):
        """Events of RUN can't be told from those of workers, and so they are any number."""
        return ()

    # ---- what is told of parts

    def why_not(self, name):
        """Why no merges and mutations of accepted blocks make this name, if none do. Blocks between which a drop was
        made are never in one part, nor are blocks in one for which different mutations are pending."""
        numbers, drops = self.numbers_in(*span(name)), self.drops_of(name.partition)
        if not numbers or (numbers[0], numbers[-1]) != (name.min, name.max):
            return "no accepted blocks begin and end it"
        if not min(1, len(numbers) - 1) <= name.level < len(numbers):
            return "merges of its blocks don't give this level"
        if any(name.min < number < max(name.max, name.mutation) for number in drops):
            return "a drop was made between its blocks, or before its mutation"
        first, last = (version(self.log, block_of(name.partition, number)) for number in (name.min, name.max))
        if name.mutation and (name.mutation < name.min or name.mutation not in self.mutations_of(name.partition)):
            return "no mutation of its blocks has this number"
        if last > (name.mutation or first):
            return "it lacks a mutation that was made between its blocks"
        return None

    def level_fits(self, name):
        """Whether the level may come of the parts within that were told of, and of the other blocks: each merge is of
        two parts or more, and one level above the highest of them."""
        inner = {span(other): other for other in self.made[name.partition] if is_around(name, other)}
        inner.pop(span(name), None)
        tops = [each for each in inner.values() if sum(is_around(other, each) for other in inner.values()) == 1]
        blocks = [block_of(name.partition, number) for number in self.numbers_in(*span(name))]
        free = [block for block in blocks if not any(is_around(each, block) for each in tops)]
        highest, count = max([each.level for each in tops], default=0), len(tops) + len(free)
        return count == 1 or highest < name.level < highest + count

    def see(self, at, name):
        """A replica has a part of this name."""
        replica, made = self.replicas[at], self.made.setdefault(name.partition, [])
        if any(takes(drop, name) for drop in replica.drops):
            raise Unfair("{} was dropped at the replica", name)
        if name not in made:
            self.tell(name, made)
        for number in self.numbers_in(*span(name)):
            if block_of(name.partition, number) not in replica.held:
                raise Unfair("{}: the replica can't have fetched {}", name, block_of(name.partition, number))
        # whether a part that was dropped waited till then, or had been merged before, isn't told by a name that has it
        self.quorum.keep(
            lambda waiting, _: waiting is None or span(waiting.part) == span(name) or not overlap(waiting.part, name),
            "{} has a part merged that waits for its quorum", name,
        )  # fmt: skip

    def tell(self, name, made):
        """A name is told of for the first time."""
        why = self.why_not(name)
        if why is not None:
            raise Unfair("{} can't be made: " + why, name)
        for other in made:
            if not may_both_be(name, other):
                raise Unfair("{} isn't made where {} was", name, other)
        made.append(name)
        for other in made:
            if overlap(name, other) and not self.level_fits(other):
                raise Unfair("{}: merges don't give the level of {} then", name, other)
        self.add_fact(name, len(self.log))

    def check_live(self, name):
        """The part of this name is live: nothing was made of its blocks later than it."""
        for other in self.facts:
            if overlap(name, other) and not covers(name, other):
                raise Unfair("{} isn't what there is of its blocks, as {} was made", name, other)

    def learn(self, at, length):
        """A replica has done the first entries of the log, so many of clients, and the workers' between them."""
        replica = self.replicas[at]
        replica.known |= {name for name, made in self.facts.items() if made <= length}
        replica.drops |= {entry for entry in self.log[:length] if isinstance(entry, Drop)}

    def catch_up(self, at):
        self.learn(at, len(self.log))
        self.quorum.note(frozenset([at]))

    # ---- what replicas read

    def given(self, at):
        """The parts that the reply names, and what is known at the replica and not covered by them. Where a drop isn't
        known there, what it takes away may be shown or not, or some of it, also after it was gone in an earlier reply:
        the definitions keep no more of a drop that workers did."""
        names = self.world.names_given()
        for name, other in zip(names, names[1:]):
            if not is_before(name, other):
                raise Unfair("{} and {} aren't apart and in order", name, other)
        for name in names:
            self.see(at, name)
        known = self.replicas[at].known
        lacked = [name for name in known if not any(covers(other, name) for other in names)]
        known.update(name for name in names if name in self.facts)
        return [(name, Part(None, self.content(name))) for name in names], lacked

    def read(self, at):
        parts, lacked = self.given(at)
        if lacked:
            raise Unfair("the replica has {}, or a part that it went into", lacked[0])
        return parts

    def read_in_quorum(self, at):
        """What a sequential SELECT reads. A part that waits for its quorum isn't merged, so that what is left out has
        its block alone."""
        line, known = self.world.next_line(), self.replicas[at].known
        if line.startswith(b"refused 14 "):
            refused = [last for _, last in self.quorum.states if last is not None and line.endswith(b" " + text(last))]
            self.quorum.keep(
                lambda waiting, last: last in refused and not any(covers(name, last) for name in known),
                "the replica has the last part whose quorum was met, or another one is the last",
            )
            raise Refusal(14, "NotInQuorum", refused[0])
        parts, lacked = self.given(at)

        def is_covered(part):
            return any(covers(name, part) for name, _ in parts)

        def may_read(waiting, last):
            if waiting is not None and is_covered(waiting.part):
                return False
            left_out = all(waiting is not None and span(name) == span(waiting.part) for name in lacked)
            return left_out and (last is None or is_covered(last))

        self.quorum.keep(may_read, "these parts aren't what the replica has in a quorum")
        return parts

    # ---- what brings replicas up to date

    def drain(self, at):
        """Brings a replica up to date, or stops at a block that it lacks, which is known neither there nor where it
        could be fetched from. A block that it can't have has to be told of; where it may have it, either reply will
        do."""
        replica, line = self.replicas[at], self.world.next_line()
        up = [other for number, other in enumerate(self.replicas) if number not in self.down]
        for place, entry in enumerate(self.log):
            name = result(entry)
            if name not in self.facts:
                continue
            refusal = Refusal(19, "NoSource", name, cluster.replica_text(entry.source))
            is_lost = name not in replica.held
            is_unknown = not any(covers(known, name) for other in up for known in other.known)
            if is_lost or (line == refusal.line and entry.source in self.down and is_unknown):
                self.learn(at, place)
                raise refusal
        self.catch_up(at)

    def synced_rows(self, at):
        return self.plain_rows()

    def check_worker_entries(self, line):
        """A limit for which there may be enough merges and mutations of parts, where there are so many blocks."""
        refusal, blocks = Refusal(18, "LimitReached", "worker_entries", cluster.WORKER_ENTRIES), self.count(Get)
        if line == refusal.line and blocks * (1 + self.count(Mutation)) >= cluster.WORKER_ENTRIES:
            raise refusal

    def optimized(self, at, partition):
        """The name of the one part that a partition has, which the reply tells. Workers may have merged all of it
        before, or mutated it, so that any level and mutation will do which its blocks may have."""
        self.rest()
        line, numbers = self.world.next_line(), self.live_numbers(partition)
        if line.startswith(b"refused 16 ") and len(line.split(b" ")) == 5:
            self.unmergeable(at, [name_in(word) for word in line.split(b" ")[3:]], partition, numbers)
        if len(numbers) > 1:
            self.check_worker_entries(line)
        if not line.startswith(b"optimized "):
            raise Unfair("{} tells of no part", line)
        name = name_in(line[10:])
        if span(name) != (partition, numbers[0], numbers[-1]):
            raise Unfair("{} isn't all that {} has", name, cluster.partition_text(partition))
        self.see(at, name)
        self.check_live(name)
        self.catch_up(at)
        return name

    def unmergeable(self, at, pair, partition, numbers):
        """The pair is the first of neighbours that aren't merged: those before it, and the left one with them, have
        gone through the same mutations, and none of these waits for its quorum."""
        left, right = pair
        for name in pair:
            self.see(at, name)
            self.check_live(name)
        if left.partition != partition or right.partition != partition:
            raise Unfair("the parts aren't of the partition whose turn it is")
        if numbers.index(left.max) + 1 != numbers.index(right.min):
            raise Unfair("the parts aren't neighbours")
        have, earlier = version(self.log, left), numbers[: numbers.index(left.min)]
        for name in self.facts:
            if name.partition == partition and name.max < left.min and version(self.log, name) > have:
                raise Unfair("{} comes before, and has other mutations than {}", name, left)
        for number in earlier:
            if version(self.log, block_of(partition, number)) < have:
                self.add_fact(block_of(partition, number)._replace(mutation=have), len(self.log))
        differ = have != version(self.log, right)
        first = right if earlier else left

        def may_refuse(waiting, last):
            if waiting is None or waiting.part.partition != partition or waiting.part.min > right.max:
                return differ
            return waiting.part.min >= first.min

        self.quorum.keep(may_refuse, "the parts have the same mutations, and neither waits for its quorum")
        raise Refusal(16, "Unmergeable", left, right)

    def carry(self, at, place):
        """All live parts have gone through the mutation at a place: some part covers each block, and has its number."""
        for partition, number in self.log[place].numbers.items():
            for block in self.live_numbers(partition):
                if block < number:
                    self.add_fact(block_of(partition, block)._replace(mutation=number), len(self.log))
        self.catch_up(at)


# ---- playing


class Judge(play.World):
    """Plays statements beside an output, which was read up to `at`. The lines are those of the statement that is
    played. Its digests may be followed by those of another CHECK TABLE, and then it is open where they end: once those
    in `ways` are used up the first way is taken each time, and `others` has those that are left."""

    def __init__(self, output, ways):
        super().__init__()
        self.output, self.at, self.ways, self.tried, self.others, self.is_followed = output, 0, ways, [], [], False

    def judge(self, statement, following):
        self.lines, self.is_followed = [], is_check(following)
        self.take(statement)
        self.at = self.end_of_lines()

    def take(self, statement):
        """Plays a statement, of a lane too: before it workers may have done whatever they may."""
        for table in self.tables.values():
            table.rest()
        super().take(statement)

    def end_of_lines(self):
        """The place in the output after the lines of the statement so far, which have to stand there."""
        at = self.at
        for line in self.lines:
            if not self.output.startswith(line + b"\n", at):
                found = self.output[at:].split(b"\n")[0]
                raise Unfair("{} should be {}", found, line)
            at += len(line) + 1
        return at

    def next_lines(self):
        lines = self.output[self.end_of_lines() :].split(b"\n")[:-1]
        if not lines:
            raise Unfair("there is no reply")
        return lines

    def next_line(self):
        return self.next_lines()[0]

    def names_given(self):
        """The names in the next lines, which list parts, or count granules or give digests of each."""
        lines = [line.split(b" ") for line in self.next_lines()]
        kind = lines[0][0]
        if kind == b"parts":
            return [name_in(word) for word in lines[0][1:]]
        if kind not in (b"granules", b"check", b"nothing"):
            raise Unfair("{} tells of no parts", self.next_line())
        run = itertools.takewhile(lambda line: line[0] == kind and len(line) == 3 and line[1] != b"total", lines)
        names = [name_in(line[1]) for line in run]
        return names[: self.length_of_digests(names)] if kind == b"check" else names

    def length_of_digests(self, names):
        """How many of the names the statement tells of: all that rise, or fewer where another CHECK TABLE follows."""
        if not self.is_followed:
            return len(names)
        most = 1 + sum(1 for _ in itertools.takewhile(lambda pair: is_before(*pair), zip(names, names[1:])))
        way = self.ways[len(self.tried)] if len(self.tried) < len(self.ways) else 0
        if len(self.tried) >= len(self.ways):
            self.others += [self.tried + [other] for other in range(1, most)]
        self.tried.append(way)
        return most - way

    def new_table(self, *said):
        return Table(self, *said)

    # ---- acts whose replies tell what workers did

    def optimize(self, table, at, word):
        partitions = sorted(table.numbers) if word is None else [play.partition_of(table, word)]
        self.check_fetches(table, at)
        table.drain(at)
        partitions = [partition for partition in partitions if table.live_numbers(partition)]
        if not partitions:
            self.lines.append(b"nothing")
        for partition in partitions:
            self.lines.append(b"optimized " + text(table.optimized(at, partition)))

    def wait(self, table, at, id_):
        self.check_fetches(table, at)
        mutations = [place for place, entry in enumerate(table.log) if isinstance(entry, Mutation)]
        if id_ >= len(mutations):
            raise Refusal(17, "UnknownMutation", id_)
        table.drain(at)
        table.check_worker_entries(self.next_line())
        table.carry(at, mutations[id_])
        self.lines.append(b"done %010d" % id_)


def is_check(statement):
    return isinstance(statement, tuple) and statement[0] == "at" and statement[2][0] == "check"


def judged(script, output, code, judge):
    """What is unfair by this judge's ways, if anything is."""
    statements = list(play.statements_in(script))
    following = [statement for _, statement in statements[1:]] + [None]
    for number, (at, statement) in enumerate(statements):
        try:
            judge.judge(statement, following[number])
        except Unfair as why:
            return f"statement {number + 1}, at byte {at}: {why}"
    if judge.at < len(output):
        return str(Unfair("after the last reply: {} is too much", output[judge.at :].split(b"\n")[0]))
    return None if code == judge.code() else f"the code is {code}, and should be {judge.code()}"


def unfair(script, output, code):
    """None where a play of the script among workers may write this output and end with this code; else a line that
    tells of the first statement whose reply is wrong, and why."""
    first, ways = None, [[]]
    while ways:
        judge = Judge(output, ways.pop())
        why = judged(script, output, code, judge)
        if why is None:
            return None
        first, ways = first or why, ways + judge.others
    return first
