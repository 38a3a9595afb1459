#!/usr/bin/env python3
"""Makes the scripts that load the facility in different ways.

usage: workloads.py LOAD STEPS [SEED]      prints the script
       workloads.py                        lists the loads

A script is the same for the same load, number of steps and seed. Object lines are not counted as steps. A history
with room for STEPS entries never runs full.
"""

import random
import sys


class Script:
    """The lines of a script, and how many more step lines fit beside those that live transactions need to end."""

    def __init__(self, steps, seed, objects):
        self.random = random.Random(seed)
        self.objects = objects
        self.left = steps
        self.transactions = 0
        self.lines = [f"object {x} {10 * x}" for x in range(1, objects + 1)]

    def has_room(self, steps):
        return self.left >= steps

    def say(self, line):
        self.lines.append(line)
        self.left -= 1

    def start(self):
        """Begins a new transaction, and keeps room for its complete and its end."""
        self.transactions += 1
        self.say(f"initiate {self.transactions}")
        self.say(f"begin {self.transactions}")
        self.left -= 2
        return self.transactions

    def start_many(self, count):
        return [self.start() for _ in range(count)]

    def finish(self, t, how="commit"):
        self.left += 2
        if how == "commit":
            self.say(f"complete {t}")
        self.say(f"{how} {t}")

    def finish_some(self, transactions, aborts):
        """Ends all of them, each by an abort with this probability."""
        for t in transactions:
            self.finish(t, "abort" if self.random.random() < aborts else "commit")

    def finish_shuffled(self, transactions, aborts=0.0):
        """Ends all of them, in another order than they began."""
        order = list(transactions)
        self.random.shuffle(order)
        self.finish_some(order, aborts)

    def finish_together(self, members, how="commit"):
        """Ends all of them by one step of the first, for which dependencies have to take the others along."""
        self.left += 2 * len(members)
        if how == "commit":
            for t in members:
                self.say(f"complete {t}")
        self.say(f"{how} {members[0]}")

    def object(self):
        return self.random.randint(1, self.objects)

    def read(self, t, x):
        self.say(f"read {t} {x}")

    def write(self, t, x):
        self.say(f"write {t} {x} {self.random.randint(-1000, 1000)}")

    def add(self, t, x):
        self.say(f"add {t} {x} {self.random.randint(-1000, 1000)}")

    def use(self, t, x):
        if self.random.random() < 0.5:
            self.read(t, x)
        else:
            self.write(t, x)

    def permit(self, giver, taker, ops, objects):
        self.say(f"permit {giver} {taker} {ops} {objects}")

    def open(self, giver, ops, objects):
        self.say(f"permit {giver} any {ops} {objects}")

    def delegate(self, giver, taker, objects):
        self.say(f"delegate {giver} {taker} {objects}")

    def depend(self, kind, source, dependent):
        self.say(f"depend {kind} {source} {dependent}")


# Transactions that share nothing.


def one_after_another(steps, seed, objects=1000):
    """Each transaction reads and writes twice, and commits before the next begins."""
    script = Script(steps, seed, objects)
    while script.has_room(8):
        t = script.start()
        for _ in range(2):
            x = script.object()
            script.read(t, x)
            script.write(t, x)
        script.finish(t)
    return script


def many_objects(steps, seed):
    """As one_after_another, with one object for every four steps."""
    return one_after_another(steps, seed, objects=max(1, steps // 4))


def opening(steps, seed):
    """Two objects for every step, and one transaction: what the object lines cost."""
    script = Script(steps, seed, 2 * steps)
    t = script.start()
    script.read(t, script.object())
    script.finish(t)
    return script


def together(steps, seed, objects, at_once, uses, aborts=0.0, act=Script.use):
    """`at_once` transactions are open at a time, and take turns at random."""
    script = Script(steps, seed, objects)
    turns = []
    while True:
        while len(turns) < at_once and script.has_room(5):
            turns.append((script.start(), uses))
        if not turns:
            return script
        position = script.random.randrange(len(turns))
        t, left = turns[position]
        if left > 0 and script.has_room(1):
            turns[position] = (t, left - 1)
            act(script, t, script.object())
        else:
            turns[position] = turns[-1]
            turns.pop()
            script.finish_some([t], aborts)


def interleaved(steps, seed):
    """32 transactions open at a time over 20,000 objects: few requests wait."""
    return together(steps, seed, objects=20_000, at_once=32, uses=6)


def half_abort(steps, seed):
    """The same, and half of them abort."""
    return together(steps, seed, objects=20_000, at_once=32, uses=6, aborts=0.5)


def hot_objects(steps, seed):
    """64 transactions open at a time over eight objects: most requests wait."""
    return together(steps, seed, objects=8, at_once=64, uses=8)


def many_live(steps, seed):
    """5,000 transactions live at once over STEPS objects."""
    return together(steps, seed, objects=max(8, steps), at_once=max(2, min(5000, steps // 20)), uses=4)


# Adds to the same object.


def adders(steps, seed):
    """64 transactions open at a time add to one object, eight times each, and a quarter of them abort: none waits."""
    return together(steps, seed, objects=1, at_once=64, uses=8, aborts=0.25, act=Script.add)


def adders_behind_one(steps, seed):
    """One transaction adds to an object and stays; others add to it, one after another, and half of them abort."""
    script = Script(steps, seed, 1)
    first = script.start()
    script.add(first, 1)
    while script.has_room(6):
        t = script.start()
        script.add(t, 1)
        script.add(t, 1)
        script.finish_some([t], 0.5)
    script.finish(first, "abort")
    return script


def adders_beside_a_writer(steps, seed):
    """One transaction writes an object and lets others add to it, one after another; half of them abort, and at last it does."""
    script = Script(steps, seed, 1)
    writer = script.start()
    script.write(writer, 1)
    while script.has_room(8):
        t = script.start()
        script.permit(writer, t, "a", 1)
        script.add(t, 1)
        script.add(t, 1)
        script.finish_some([t], 0.5)
    script.finish(writer, "abort")
    return script


# Readers of the same objects.


def hot_readers(steps, seed, at_once=2000):
    """2,000 live transactions read four objects, every fourth asks to write one and waits, and all end."""
    script = Script(steps, seed, 4)
    while script.has_room(8):
        readers = []
        while script.has_room(8) and len(readers) < at_once:
            readers.append(script.start())
            script.read(readers[-1], script.object())
            script.read(readers[-1], script.object())
            if len(readers) % 4 == 0:
                script.write(readers[-1], script.object())
        script.finish_some(readers, 0.0)
    return script


def many_readers(steps, seed):
    """A live transaction for every eight steps; each reads the same four objects, and then all end."""
    script = Script(steps, seed, 4)
    readers = script.start_many(steps // 8)
    for x in range(1, 5):
        for t in readers:
            script.read(t, x)
    script.finish_shuffled(readers)
    return script


# Permits.


def permit_each_next(script, chain, objects):
    for giver, taker in zip(chain, chain[1:]):
        script.permit(giver, taker, "rw", objects)


def permit_chains(steps, seed, length, aborts=0.0):
    """Chains in which each transaction permits the next; the last writes what the first wrote, and all end."""
    script = Script(steps, seed, 2000)
    while script.has_room(6 * length + 4):
        chain = script.start_many(length)
        x = script.object()
        script.write(chain[0], x)
        permit_each_next(script, chain, x)
        script.write(chain[-1], x)
        script.read(chain[-1], x)
        script.finish_some(reversed(chain), aborts)
    return script


def chains_of_2(steps, seed):
    """Chains of 2 transactions, each of which permits the next."""
    return permit_chains(steps, seed, 2)


def chains_of_8(steps, seed):
    """Chains of 8."""
    return permit_chains(steps, seed, 8)


def chains_of_64(steps, seed):
    """Chains of 64."""
    return permit_chains(steps, seed, 64)


def chains_that_abort(steps, seed):
    """Chains of 64, and a quarter of the transactions abort."""
    return permit_chains(steps, seed, 64, aborts=0.25)


def one_long_chain(steps, seed):
    """One chain of permits through a live transaction for every six steps; five of them write, and all end."""
    script = Script(steps, seed, 1)
    chain = script.start_many(max(2, steps // 6))
    permit_each_next(script, chain, 1)
    for quarter in range(5):
        script.write(chain[(len(chain) - 1) * quarter // 4], 1)
    script.finish_some(chain[::2], 0.0)
    script.finish_some(chain[1::2], 1.0)
    return script


def permit_pairs(script, count):
    """Pairs of which each lets the other read, and the first lets the second write. Room for their uses is kept."""
    pairs = []
    while script.has_room(16) and len(pairs) < count:
        one, other = script.start_many(2)
        objects = sorted({script.object() for _ in range(3)})
        script.permit(one, other, "rw", ",".join(map(str, objects)))
        script.permit(other, one, "r", "all")
        script.permit(one, other, "w", "all")
        script.left -= 3
        pairs.append((one, other, objects))
    return pairs


def standing_permits(steps, seed):
    """5,000 live transactions in pairs with three permits each; one of a pair writes over what the other wrote."""
    script = Script(steps, seed, 20_000)
    while script.has_room(16):
        pairs = permit_pairs(script, 2500)
        for one, other, objects in pairs:
            script.left += 3
            script.write(one, objects[0])
            script.write(other, objects[0])
            script.read(one, objects[-1])
        for one, other, _ in pairs:
            script.finish(one)
            script.finish(other, "abort")
    return script


def one_giver(steps, seed):
    """One transaction permits a live taker for every six steps to read what it wrote; half of them abort."""
    script = Script(steps, seed, 16)
    giver = script.start()
    for x in range(1, 17):
        script.write(giver, x)
    takers = []
    while script.has_room(6):
        takers.append(script.start())
        script.permit(giver, takers[-1], "r", "all")
        script.read(takers[-1], script.object())
    script.finish_shuffled(takers, aborts=0.5)
    script.finish(giver)
    return script


# Permits to anybody.


def one_opener(steps, seed):
    """One transaction lets anybody read what it wrote; a live reader for every five steps does, and half of them abort."""
    script = Script(steps, seed, 16)
    opener = script.start()
    for x in range(1, 17):
        script.write(opener, x)
    script.open(opener, "r", ",".join(map(str, range(1, 17))))
    readers = []
    while script.has_room(5):
        readers.append(script.start())
        script.read(readers[-1], script.object())
    script.finish_shuffled(readers, aborts=0.5)
    script.finish(opener)
    return script


def drafts(steps, seed):
    """Each transaction writes an object and lets anybody read it; the four that began before it do, and end in turn."""
    script = Script(steps, seed, 1000)
    live = []
    while script.has_room(9):
        author = script.start()
        x = author % 1000 + 1
        script.write(author, x)
        script.open(author, "r", x)
        for reader, _ in live:
            script.read(reader, x)
        live.append((author, x))
        if len(live) > 4:
            script.finish(live.pop(0)[0])
    for author, _ in live:
        script.finish(author)
    return script


def open_each(script, giver, ops):
    """Lets anybody do the operations on all objects, sixteen by each permit."""
    for first in range(1, script.objects + 1, 16):
        script.open(giver, ops, ",".join(map(str, range(first, min(first + 16, script.objects + 1)))))


def written_then_opened(steps, seed, objects):
    """Short transactions write so many objects, and then one lets anybody read all of them."""
    script = Script(steps, seed, objects)
    while script.has_room(10 + script.objects // 16):
        t = script.start()
        script.write(t, script.object())
        script.finish(t)
    opener = script.start()
    open_each(script, opener, "r")
    script.finish(opener)
    return script


def opened_late(steps, seed):
    """Short transactions write some objects, and then one lets anybody read all of them."""
    return written_then_opened(steps, seed, min(1000, steps // 10))


def all_opened_late(steps, seed):
    """As opened_late, with an object for every twenty steps."""
    return written_then_opened(steps, seed, steps // 20 + 1)


def opened_by_two(steps, seed, objects):
    """Two let anybody write so many objects, and short transactions write them, one after another."""
    script = Script(steps, seed, objects)
    openers = script.start_many(2)
    for t in openers:
        open_each(script, t, "rw")
    while script.has_room(5):
        t = script.start()
        script.write(t, script.object())
        script.finish(t)
    script.finish_some(openers, 0.0)
    return script


def two_openers(steps, seed):
    """Two let anybody write all of some objects, and short transactions write them, one after another."""
    return opened_by_two(steps, seed, min(1000, steps // 10))


def two_openers_of_all(steps, seed):
    """As two_openers, with an object for every ten steps."""
    return opened_by_two(steps, seed, steps // 10 + 1)


def open_chains_of_64(steps, seed):
    """Chains of 64 as above, whose last permits anybody; a stranger writes what the first wrote, and all end."""
    script = Script(steps, seed, 2000)
    while script.has_room(6 * 65 + 4):
        chain = script.start_many(64)
        stranger = script.start()
        x = script.object()
        script.write(chain[0], x)
        permit_each_next(script, chain, x)
        script.open(chain[-1], "rw", x)
        script.write(stranger, x)
        script.read(stranger, x)
        script.finish_some([stranger, *reversed(chain)], 0.0)
    return script


def one_long_open_chain(steps, seed):
    """One chain as above, whose last permits anybody; five strangers write, one after another, and all end."""
    script = Script(steps, seed, 1)
    strangers = script.start_many(5)
    chain = script.start_many(max(2, steps // 6 - 5))
    permit_each_next(script, chain, 1)
    script.open(chain[-1], "rw", 1)
    script.write(chain[0], 1)
    for t in strangers:
        script.write(t, 1)
        script.finish(t)
    script.finish_some(chain[::2], 0.0)
    script.finish_some(chain[1::2], 1.0)
    return script


def two_writers(steps, seed):
    """Two transactions permit each other everything and write one object in turn; one aborts, one commits."""
    script = Script(steps, seed, 1)
    one, other = script.start_many(2)
    script.permit(one, other, "rw", "all")
    script.permit(other, one, "rw", "all")
    while script.has_room(2):
        script.write(one, 1)
        script.write(other, 1)
    script.finish(one, "abort")
    script.finish(other)
    return script


# Delegations.


def many_children(steps, seed):
    """One parent permits children, one after another, who write, and hand all that they did over to it."""
    script = Script(steps, seed, 1000)
    parent = script.start()
    while script.has_room(10):
        child = script.start()
        script.permit(parent, child, "rw", "all")
        for _ in range(3):
            script.write(child, script.object())
        script.delegate(child, parent, "all")
        script.finish(child)
    script.finish(parent)
    return script


def to_and_fro(steps, seed):
    """Two transactions hand one object over to each other all the time, and hold a thousand others."""
    script = Script(steps, seed, 1001)
    one, other = script.start_many(2)
    for x in range(1, min(1001, steps // 4) + 1):
        script.write(one, x)
    while script.has_room(2):
        script.delegate(one, other, 1)
        script.delegate(other, one, 1)
    script.finish(one, "abort")
    script.finish(other)
    return script


def hand_over_all(steps, seed):
    """One transaction writes an object for every two steps, and hands all to and fro, eight times; then one by one."""
    script = Script(steps, seed, max(4, steps // 2 - 8))
    one, other = script.start_many(2)
    for x in range(1, script.objects + 1):
        script.write(one, x)
    for _ in range(4):
        script.delegate(one, other, "all")
        script.delegate(other, one, "all")
    for x in range(1, script.objects + 1):
        if script.has_room(1):
            script.delegate(one, other, x)
    script.finish(one, "abort")
    script.finish(other)
    return script


# Dependencies.


def start_chain(script, kind, count, each):
    """Transactions of which each depends on the one before it; each writes an object, and takes `each` steps in all."""
    chain = []
    while len(chain) < count and script.has_room(each):
        t = script.start()
        script.write(t, script.object())
        if chain:
            script.depend(kind, chain[-1], t)
        chain.append(t)
    return chain


def classes_of_1000(steps, seed):
    """Classes of 1,000 transactions, each joined to the one before it; a commit or an abort of one ends each class."""
    script = Script(steps, seed, 20_000)
    hows = ["commit", "abort"]
    while script.has_room(6):
        members = start_chain(script, "gc", 1000, 6)
        script.finish_together(members, hows[0])
        hows.reverse()
    return script


def stars_of_1000(steps, seed):
    """The same, with all joined to the first."""
    script = Script(steps, seed, 20_000)
    hows = ["commit", "abort"]
    while script.has_room(6):
        members = [script.start()]
        while len(members) < 1000 and script.has_room(6):
            members.append(script.start())
            script.write(members[-1], script.object())
            script.depend("gc", members[0], members[-1])
        script.finish_together(members, hows[0])
        hows.reverse()
    return script


def pairs_that_join(steps, seed):
    """Pairs that commit together, each joined to the one before it, up to 5,000; a commit of one ends them all."""
    script = Script(steps, seed, 20_000)
    while script.has_room(12):
        members = []
        while len(members) < 10_000 and script.has_room(12):
            pair = script.start_many(2)
            script.depend("gc", pair[0], pair[1])
            if members:
                script.depend("gc", members[-1], pair[0])
            members += pair
        script.finish_together(members, "commit")
    return script


def pairs_at_a_hub(steps, seed):
    """Pairs that commit together, up to 5,000; one of each is joined to the same transaction, whose commit ends them all."""
    script = Script(steps, seed, 20_000)
    while script.has_room(12):
        members = [script.start()]
        while len(members) < 10_000 and script.has_room(12):
            pair = script.start_many(2)
            script.depend("gc", pair[0], pair[1])
            script.depend("gc", members[0], pair[0])
            members += pair
        script.finish_together(members, "commit")
    return script


def workflows(steps, seed):
    """Three parts that commit together, and a step that depends on one of them; in a quarter of them a part aborts."""
    script = Script(steps, seed, 20_000)
    while script.has_room(24):
        parts = script.start_many(3)
        after = script.start()
        script.depend("gc", parts[0], parts[1])
        script.depend("gc", parts[1], parts[2])
        script.depend("ad", parts[2], after)
        for t in [*parts, after]:
            script.write(t, script.object())
        if script.random.random() < 0.25:
            script.finish_together([*parts, after], "abort")
        else:
            script.finish_together(parts)
            script.finish(after)
    return script


def chain_of_commits(steps, seed):
    """Chains of 10,000, each with a commit dependency on the one before it; they commit from the source on."""
    script = Script(steps, seed, 20_000)
    while script.has_room(6):
        script.finish_some(start_chain(script, "cd", 10_000, 6), 0.0)
    return script


def chain_of_aborts(steps, seed):
    """Chains of 10,000, each with an abort dependency on the one before it; an abort of the first ends all."""
    script = Script(steps, seed, 20_000)
    while script.has_room(6):
        script.finish_together(start_chain(script, "ad", 10_000, 6), "abort")
    return script


def fan_out(steps, seed):
    """10,000 with an abort dependency on one source, which aborts and takes all."""
    script = Script(steps, seed, 20_000)
    while script.has_room(10):
        source = script.start()
        fan = [source]
        while len(fan) <= 10_000 and script.has_room(6):
            fan.append(script.start())
            script.write(fan[-1], script.object())
            script.depend("ad", source, fan[-1])
        script.finish_together(fan, "abort")
    return script


def fan_in(steps, seed):
    """One with a commit dependency on each of 10,000 sources; half of them abort, and then it commits."""
    script = Script(steps, seed, 20_000)
    while script.has_room(10):
        dependent = script.start()
        fan = []
        while len(fan) < 10_000 and script.has_room(6):
            fan.append(script.start())
            script.write(fan[-1], script.object())
            script.depend("cd", fan[-1], dependent)
        script.finish_shuffled(fan, aborts=0.5)
        script.finish(dependent)
    return script


# Transactions that live long.


def long_writers(steps, seed, writers=8):
    """Eight transactions write objects of their own from the first step to the last, beside short ones; half abort."""
    script = Script(steps, seed, 1000)
    long_lived = script.start_many(writers)
    while script.has_room(2 * writers + 8):
        for t in long_lived:
            script.write(t, t)
        short = script.start()
        x = script.random.randint(writers + 1, script.objects)
        script.read(short, x)
        script.write(short, x)
        script.finish(short)
    script.finish_some(long_lived[::2], 1.0)
    script.finish_some(long_lived[1::2], 0.0)
    return script


def many_writes(steps, seed):
    """One transaction writes 1,000 objects for the whole run, and aborts."""
    script = Script(steps, seed, 1000)
    t = script.start()
    while script.has_room(1):
        script.write(t, script.object())
    script.finish(t, "abort")
    return script


LOADS = {
    load.__name__: load
    for load in [
        one_after_another,
        interleaved,
        half_abort,
        hot_objects,
        many_objects,
        opening,
        many_live,
        long_writers,
        many_writes,
        hot_readers,
        many_readers,
        adders,
        adders_behind_one,
        adders_beside_a_writer,
        chains_of_2,
        chains_of_8,
        chains_of_64,
        chains_that_abort,
        one_long_chain,
        standing_permits,
        one_giver,
        one_opener,
        drafts,
        opened_late,
        all_opened_late,
        two_openers,
        two_openers_of_all,
        open_chains_of_64,
        one_long_open_chain,
        two_writers,
        many_children,
        to_and_fro,
        hand_over_all,
        classes_of_1000,
        stars_of_1000,
        pairs_that_join,
        pairs_at_a_hub,
        workflows,
        chain_of_commits,
        chain_of_aborts,
        fan_out,
        fan_in,
    ]
}


def described():
    """The loads with what each does, a line for each."""
    return "\n".join(f"  {name:18} {load.__doc__}" for name, load in LOADS.items())


def main():
    if len(sys.argv) == 1:
        print(described())
        return
    if len(sys.argv) not in (3, 4) or sys.argv[1] not in LOADS or not all(word.isdigit() for word in sys.argv[2:]):
        sys.exit("workloads.py: usage: workloads.py LOAD STEPS [SEED]; without arguments it lists the loads")
    load = LOADS[sys.argv[1]]
    seed = int(sys.argv[3]) if len(sys.argv) > 3 else 1
    print("\n".join(load(int(sys.argv[2]), seed).lines))


if __name__ == "__main__":
    main()
