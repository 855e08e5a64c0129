#!/usr/bin/env python3
"""Writes the cases of the programs: a folder each under tests/programs/PROGRAM/CASE, with what the program is run on and, in
`stdout`, what it must write. Document 01 has the answers of plans A and B; the others are worked out beside them, and a maker of
its own (`Maker`, from document 01 alone) says what `make` must write. It must agree with the other reference, doc01.py.
Run from the repository's root: python3 tests/programs/gen.py"""
import os
import random
import sys

HERE = os.path.dirname(os.path.abspath(__file__))
sys.path.insert(0, os.path.join(HERE, '..', 'vectors'))
import doc01 as d


def case(program, name, said, **files):
    folder = os.path.join(HERE, program, name)
    os.makedirs(folder, exist_ok=True)
    for file, data in files.items():
        with open(os.path.join(folder, file.replace('_', '.')), 'wb') as f:
            f.write(data)
    with open(os.path.join(folder, 'stdout'), 'w') as f:
        f.write(said)


def table(rows):
    return b''.join(d.field(4, bytes([core]) + b''.join(d.octets(mark, 4) for mark in marks)) for core, *marks in rows)


TAG_1 = d.field(1, bytes([2, 3, 3]))
PLAN_B = d.plan_bytes(3, 3, 3, [5, 20, 10], [(0, 1, 4), (0, 2, 4)])


def reads(first, second):
    """Plan B's table with the read windows of tasks 1 and 2."""
    return table([(0, 0, 0, 5, 13), (1, *first, first[1] + 20, first[1] + 20), (2, *second, second[1] + 10, second[1] + 10)])


# The customer's accident. Task 1 is the camera's, on core 0: its read has the bus for itself in [13, 17). On core 2 task 3,
# which reads nothing, has its window there, and task 2 reads later. With the windows of tasks 2 and 3 exchanged, task 2 reads
# while the camera does: each has a rival, the delay of 4 words is then 3*2*1 + 3*1 + 1*1 = 10, and 4 are left for it.
CAMERA = d.plan_bytes(3, 3, 3, [5, 20, 10, 10], [(0, 1, 4), (0, 2, 4)])
EARLY, LATE = (13, 17, 27, 27), (27, 31, 41, 41)
KEPT = [(1, 0, 0, 5, 13), (0, 13, 17, 37, 37), (2, *LATE), (2, *EARLY)]
EXCHANGED = [(1, 0, 0, 5, 13), (0, 13, 17, 37, 37), (2, *EARLY), (2, *LATE)]


def verify():
    case('verify', 'b_overlapping', 'accepted 43\n', plan_bin=PLAN_B, table_bin=reads((13, 23), (13, 23)))
    case('verify', 'b_short', 'refused 15 at 20\n', plan_bin=PLAN_B, table_bin=reads((13, 22), (13, 22)))
    case('verify', 'b_touching', 'accepted 37\n', plan_bin=PLAN_B, table_bin=reads((13, 17), (17, 21)))
    case('verify', 'b_crossing', 'refused 15 at 20\n', plan_bin=PLAN_B, table_bin=reads((13, 17), (16, 20)))
    case('verify', 'tag_1_only', 'accepted 0\n', plan_bin=TAG_1, table_bin=b'')
    case('verify', 'tag_1_no_table', 'accepted 0\n', plan_bin=TAG_1)
    case('verify', 'no_files', 'refused 1 at 0\n')
    case('verify', 'no_table', 'refused 9 at 0\n', plan_bin=PLAN_B)
    case('verify', 'long_table', 'refused 9 at 60\n', plan_bin=PLAN_B, table_bin=reads((13, 23), (13, 23)) + bytes(5000))
    case('verify', 'camera', 'accepted 41\n', plan_bin=CAMERA, table_bin=table(KEPT))
    case('verify', 'camera_exchanged', 'refused 15 at 20\n', plan_bin=CAMERA, table_bin=table(EXCHANGED))


class Maker:
    """Document 01, "The list rule", by task number; phases are pairs (task, 'read' or 'write')."""

    def __init__(self, cores, T, D, costs, edges):
        self.cores, self.T, self.D, self.costs, self.edges = cores, T, D, costs, edges

    def order(self):
        """"repeatedly take the lowest-numbered task whose sources are all taken"; None where that stops early."""
        taken = []
        while len(taken) < len(self.costs):
            ready = [i for i in range(len(self.costs))
                     if i not in taken and all(s in taken for s, t, _ in self.edges if t == i)]
            if not ready:
                return None
            taken.append(ready[0])
        return taken

    def delay(self, words, rivals):
        slots = -(-words // self.D)
        return self.T * slots * rivals + self.T * (words // self.D) + words % self.D * (self.T // self.D)

    def words(self, added, core):
        moved = {(i, kind): 0 for i in added for kind in ('read', 'write')}
        for s, t, w in self.edges:
            if s in added and t in added and core[s] != core[t]:
                moved[s, 'write'] += w
                moved[t, 'read'] += w
        return moved

    def windows(self, i, R, length):
        E = R + length[i, 'read']
        W = E + self.costs[i]
        return {'read': (R, E), 'write': (W, W + length[i, 'write'])}

    def place(self, added, core, exclusive, words, length):
        """Step 2: the windows of each added task, in list order."""
        at = {}
        for i in added:
            before = [j for j in at if core[j] == core[i] or any(e[:2] == (j, i) for e in self.edges)]
            R = max([at[j]['write'][1] for j in before], default=0)
            if i in exclusive:
                others = [at[j][kind] for j in at if core[j] != core[i] for kind in at[j] if words[j, kind] > 0]
                mine = [kind for kind in ('read', 'write') if words[i, kind] > 0]
                lead = {'read': 0, 'write': length[i, 'read'] + self.costs[i]}

                def free(start):
                    own = self.windows(i, start, length)
                    return not any(own[k][0] < end and begin < own[k][1] for k in mine for begin, end in others)

                # the least free time is R, or a phase of this task starts there where another's ends
                R = min(t for t in [R] + [end - lead[k] for k in mine for _, end in others] if t >= R and free(t))
            at[i] = self.windows(i, R, length)
        return at

    def settle(self, added, core, exclusive):
        words = self.words(added, core)
        length = {x: self.delay(words[x], 0) for x in words}
        carrying = [x for x in words if words[x] > 0]
        while True:
            at = self.place(added, core, exclusive, words, length)
            grown = dict(length)
            for i, kind in carrying:
                start, end = at[i][kind]
                meets = [1 for j, other in carrying
                         if core[j] != core[i] and start < at[j][other][1] and at[j][other][0] < end]
                grown[i, kind] = max(length[i, kind], self.delay(words[i, kind], min(len(meets), self.cores - 1)))
            if grown == length:
                return max([at[i]['write'][1] for i in added], default=0), at
            length = grown

    def make(self):
        """The makespan and the rows by task, or None for a plan with a cycle."""
        order = self.order()
        if order is None:
            return None
        core, exclusive, best = {}, set(), (0, {})
        for k, task in enumerate(order):
            found = []
            for c in range(self.cores):
                for mode in (0, 1):
                    span, at = self.settle(order[:k + 1], {**core, task: c}, exclusive | ({task} if mode else set()))
                    found.append((span, c, mode, at))
            span, c, mode, at = min(found, key=lambda f: f[:3])
            core[task] = c
            if mode:
                exclusive.add(task)
            best = (span, at)
        span, at = best
        return span, [(core[i], *at[i]['read'], *at[i]['write']) for i in range(len(self.costs))]

    def said(self):
        span, rows = self.make()
        return 'makespan %d\n' % span + ''.join('%d %d %d %d %d %d\n' % (i, *row) for i, row in enumerate(rows))


def made(name, cores, T, D, costs, edges, said=None):
    """A case of `make`: what it prints is the maker's; `said`, where document 01 gives it."""
    plan = d.plan_bytes(cores, T, D, costs, edges)
    ours = Maker(cores, T, D, costs, edges).said()
    assert ours == (said or ours) == d.make_program(plan), name
    case('make', name, ours, stdin=plan)


def refused(name, plan, said):
    assert d.make_program(plan) == said, name
    case('make', name, said, stdin=plan)


def full_plan():
    """64 tasks and 256 edges on 8 cores."""
    r = random.Random(64)
    edges = set()
    while len(edges) < 256:
        s, t = sorted(r.sample(range(64), 2))
        if t - s <= 12:
            edges.add((s, t))
    return 8, 6, 2, [r.randint(20, 400) for _ in range(64)], [(s, t, r.randint(0, 40)) for s, t in sorted(edges)]


def make():
    a = [5, 20, 10], [(0, 1, 4), (0, 2, 4)]
    made('plan_a', 2, 3, 3, *a, said='makespan 29\n0 0 0 0 5 9\n1 0 9 9 29 29\n2 1 9 13 23 23\n')
    made('plan_b', 3, 3, 3, *a)
    made('tag_1_only', 2, 3, 3, [], [], said='makespan 0\n')
    refused('empty', b'', 'refused 1 at 0\n')
    refused('cyclic', d.plan_bytes(2, 3, 3, [5, 20, 10], [(0, 1, 4), (1, 2, 4), (2, 0, 4)]), 'refused 7 at 42\n')
    refused('long_input', bytes(5000), 'refused 2 at 0\n')
    made('full', *full_plan())
    # task 5's winning candidate (core 2, exclusive) has makespan 29 in round 1 and 24 in round 2: none may be given up early
    made('falls', 3, 3, 3, [1, 1, 8, 9, 5, 8], [(0, 3, 6), (0, 5, 3), (1, 5, 3), (2, 4, 2), (2, 5, 1), (3, 4, 1)],
         said='makespan 24\n0 0 0 0 1 7\n1 1 0 0 1 7\n2 2 0 0 8 10\n3 0 7 7 16 16\n4 0 16 18 23 23\n5 2 10 16 24 24\n')


verify()
make()
