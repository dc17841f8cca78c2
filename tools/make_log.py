#!/usr/bin/env python3
"""Writes a log of many events, the same for the same words: tools/make_log.py [EVENTS] [SHAPE] [SEED].

full              32 wait nearly always: each delivery involves another partition, and its vote comes once its threshold is reached
local             transactions of our own partition, each of which commits at once
reads             nine reads of the last 64 versions for each such transaction
scattered         some 28 wait, all of two partitions; each delivery has six to eight keys read and as many written, by chance from all 1,024, and a snapshot some 50
                  commits back; one in ten reads what a commit since wrote, and is aborted
scattered-local   the same, but nine in ten deliveries are of our own partition alone
scattered-reads   as scattered, but four in five events are reads of the last 64 versions
"""
import random
import sys
from collections import deque


def keys(chance, first, count):
    return sorted(chance.sample(range(first, first + 32), count))


def delivery(identity, partitions, st, reads, writes, chance):
    listed = ",".join(map(str, reads)) or "-"
    pairs = ",".join(f"{key}={chance.randint(-1_000_000, 1_000_000)}" for key in writes) or "-"
    return f"D\t{identity}\t{partitions}\t{st}\t{listed}\t{pairs}"


def full(events, chance):
    yield "O\t2\t0\t31"
    sc, delivered, voted = 0, 0, 0
    for _ in range(events):
        if delivered - voted < 32:
            delivered += 1
            first = delivered % 32 * 32  # no two that wait share a key
            yield delivery(delivered, 3, sc, keys(chance, first, 4), keys(chance, first, 4), chance)
        else:
            voted += 1
            sc += 1
            yield f"V\t{voted}\t1\tY"


def local(events, chance):
    yield "O\t1\t0\t4"
    for sc in range(events):
        first = chance.randrange(992)
        yield delivery(sc + 1, 1, sc, keys(chance, first, 4), keys(chance, first, 4), chance)


def reads(events, chance):
    yield "O\t1\t0\t4"
    sc = 0
    for i in range(events):
        if i % 10 == 0:
            first = chance.randrange(992)
            yield delivery(sc + 1, 1, sc, keys(chance, first, 4), keys(chance, first, 4), chance)
            sc += 1
        else:
            yield f"R\t{chance.randrange(1024)}\t{chance.randint(max(0, sc - 64), sc)}"


class Scattered:
    """Deliveries whose keys lie by chance between those of the others: what is read is even and what is written odd, so that none clashes but by intent."""

    THRESHOLD = 24  # of 28 that wait, 27 came after the head, so its vote finishes it
    WAITING = 28
    READ = range(0, 1024, 2)
    WRITTEN = range(1, 1024, 2)

    def __init__(self, chance, local_share):
        self.chance = chance
        self.local_share = local_share
        self.dc = self.sc = 0
        self.waiting = []  # of each the identity, whether it is global, its rt, what it writes
        self.kept = deque(maxlen=64)  # what each of the newest commits wrote

    def event(self):
        if len(self.waiting) < self.WAITING:
            return self.deliver()
        identity = self.waiting[0][0]
        self.close(True)
        return f"V\t{identity}\t1\tY"

    def deliver(self):
        chance = self.chance
        self.dc += 1
        behind = min(self.sc, chance.randint(45, 55))
        read = chance.sample(self.READ, chance.randint(6, 8))
        written = sorted(chance.sample(self.WRITTEN, chance.randint(6, 8)))
        is_local = chance.random() < self.local_share
        clashes = behind > 0 and chance.random() < 0.1
        if clashes:
            read[0] = chance.choice(self.kept[chance.randrange(-behind, 0)])
        line = delivery(self.dc, 1 if is_local else 3, self.sc - behind, sorted(read), written, chance)
        if not clashes:
            self.waiting.insert(self.place(is_local), (self.dc, not is_local, self.dc + self.THRESHOLD, written))
            self.close(False)
        return line

    def place(self, is_local):
        place = len(self.waiting)
        while is_local and place > 0 and self.waiting[place - 1][1] and self.dc <= self.waiting[place - 1][2]:
            place -= 1
        return place

    def close(self, has_voted):
        """Takes the head off if its vote has come, and every local one that is then the head."""
        while self.waiting and (has_voted or not self.waiting[0][1]):
            self.kept.append(self.waiting.pop(0)[3])
            self.sc += 1
            has_voted = False


def scattered(events, chance, local_share=0.0, read_share=0.0):
    log = Scattered(chance, local_share)
    yield f"O\t2\t0\t{log.THRESHOLD}"
    for _ in range(events):
        if chance.random() < read_share:
            yield f"R\t{chance.randrange(1024)}\t{chance.randint(max(0, log.sc - 64), log.sc)}"
        else:
            yield log.event()


def scattered_local(events, chance):
    return scattered(events, chance, local_share=0.9)


def scattered_reads(events, chance):
    return scattered(events, chance, read_share=0.8)


SHAPES = {"full": full, "local": local, "reads": reads, "scattered": scattered, "scattered-local": scattered_local, "scattered-reads": scattered_reads}


def main():
    events = int(sys.argv[1]) if len(sys.argv) > 1 else 1_000_000
    shape = sys.argv[2] if len(sys.argv) > 2 else "full"
    chance = random.Random(int(sys.argv[3]) if len(sys.argv) > 3 else 1)
    for line in SHAPES[shape](events, chance):
        sys.stdout.write(line + "\n")


main()
