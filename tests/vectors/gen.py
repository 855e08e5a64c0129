#!/usr/bin/env python3
"""Writes crates/vectors/stdin, the cases, and crates/vectors/stdout, what an independent program (doc01.py, written from
document 01 alone) says of them. Run from the repository's root: python3 tests/vectors/gen.py"""
import os
import random
import doc01 as d

ROOT = os.path.join(os.path.dirname(os.path.abspath(__file__)), '..', '..', 'crates', 'vectors')
cases = []


def add(kind, blocks, line):
    data = bytes([kind])
    for block in blocks:
        data += d.octets(len(block), 2) + bytes(block)
    cases.append((data, line))


def joined(values):
    return ''.join(' %d' % v for v in values)


def refused(said):
    return ' refused %d %d %d' % said[:3]


# ---- kind 1: a plan
def plan(data):
    got = d.parse_plan(data)
    if isinstance(got, tuple):
        line = 'plan' + refused(got)
    else:
        line = 'plan' + joined([got.cores, got.T, got.D]) + ' tasks' + joined(got.costs) + ' order' + joined(d.list_order(got))
        line += ' edges' + ''.join(joined(e[k] for e in got.edges) for k in range(3))
    add(1, [data, b'', b''], line)


# ---- kind 2: the reader's step at a place
def step(data, at):
    got = d.step(data, at)
    if got[0] == 'none':
        line = 'step none then %d' % at
    elif got[0] == 'refused':
        line = 'step' + refused((got[1], d.PLAN, got[2])) + ' then %d' % at
    else:
        line = 'step' + joined([got[1], at, len(got[2])]) + ' then %d' % got[3]
    add(2, [data, b'', d.octets(at, 2)], line)


def answered(said):
    return refused(said) if said[0] else ''


# ---- kind 3: a table read into a lent list of a length
def read(data, table, room):
    said, out = d.read(data, table, [9] * room)
    add(3, [data, table, d.octets(room, 2)], 'read' + answered(said) + ' list' + joined(out))


# ---- kind 4: numbers written into a lent output of a length
def write(data, numbers, room):
    said, out = d.write(data, numbers, bytes([9] * room))
    add(4, [data, b''.join(d.octets(x, 4) for x in numbers), d.octets(room, 2)], 'write' + answered(said) + ' bytes' + joined(out))


# ---- kind 5: a table judged
def verify(data, table):
    said = d.verify(data, table)
    add(5, [data, table, b''], 'verify' + (refused(said) if said[0] else joined(said[3])))


# ---- kind 6: a table played, with a core served last and word counts, into a lent list of a length
def run(data, table, served, words, room):
    said, out = d.run(data, table, served, words, [9] * room)
    given = d.octets(room, 2) + d.octets(served, 4) + b''.join(d.octets(x, 4) for x in words)
    add(6, [data, table, given], 'run' + answered(said) + ' list' + joined(out))


# ---- kind 7: a table made into a lent output of a length
def make(data, room):
    said, out = d.make(data, bytes([9] * room))
    add(7, [data, b'', d.octets(room, 2)], 'make' + (refused(said) if said[0] else joined(said[3])) + ' bytes' + joined(out))


def header(cores=2, t=3, words=3):
    return d.field(1, bytes([cores, t, words]))


def task(c=5):
    return d.field(2, d.octets(c, 2))


def edge(s, t, w=4):
    return d.field(3, bytes([s, t]) + d.octets(w, 2))


PLAN_A = d.plan_bytes(2, 3, 3, [5, 20, 10], [(0, 1, 4), (0, 2, 4)])


def plans():
    good = [
        PLAN_A, header(), header() + task(), header(1, 1, 1), header(8, 64, 64), header(8, 64, 1),
        header() + task(1) + task(65535), header() + task() * 64, header() + task() * 2 + edge(0, 1, 4095), header() + task() * 2 + edge(1, 0, 0),
        d.plan_bytes(8, 6, 2, [7] * 64, sorted((s, t, (s * t) % 4096) for s in range(4) for t in range(4, 64))[:240]),
        d.plan_bytes(3, 4, 2, list(range(1, 65)), sorted((63 - i, 62 - i, i) for i in range(63))),
    ]
    for data in good:
        plan(data)
    # each refusal, each check of a field in its turn, and two faults in one field
    bad = [
        b'', b'\x01', b'\x01\x00', b'\x01\x00\x03', header()[:-1], header() + b'\x02', header() + b'\x02\x00\x02\x00',
        task(), edge(0, 0), b'\x04\x00\x11' + bytes(17), b'\x00\x00\x00', b'\xff\xff\xff', header() + header(), header() + b'\x04\x00\x11' + bytes(17),
        header() + task() * 2 + edge(0, 1) + task(), header() + b'\x05\x00\x04\x02\x03\x03\x00',
        b'\x01\x00\x02\x02\x03', b'\x01\x00\x04\x02\x03\x03\x00', header() + b'\x02\x00\x03\x00\x05\x00', header() + task() + b'\x03\x00\x05\x00\x00\x00\x00\x00', header() + b'\x02\x01\x02\x00\x05',
        header(0), header(9), header(2, 0, 3), header(2, 65, 5), header(2, 3, 0), header(2, 64, 65), header(2, 3, 2), header(255, 255, 255),
        header() + task(0), header() + task() + edge(1, 0), header() + task() + edge(0, 1), header() + task() * 2 + edge(0, 1, 4096), header() + edge(0, 0), header() + task() * 2 + edge(0, 1, 65535),
        header() + task() * 3 + edge(0, 1) + edge(0, 1), header() + task() * 3 + edge(1, 2) + edge(0, 1), header() + task() * 3 + edge(0, 2) + edge(0, 1),
        header() + task() * 65, header() + task() * 64 + task(0), d.plan_bytes(2, 3, 3, [1] * 64, sorted((s, t, 1) for s in range(5) for t in range(5, 64))[:257]),
        header() + task() + edge(0, 0), header() + task() * 2 + edge(0, 1) + edge(1, 0), header() + task() * 3 + edge(0, 1) + edge(1, 2) + edge(2, 0),
        header() + task() * 4 + edge(0, 1) + edge(2, 3) + edge(3, 2),
        # order: tag before length, length before body cut, 6 before 4, 4 before 5, the first bad field
        header() + b'\x01\x00\x09', b'\x02\x00\x09\x00', header() + b'\x02\x00\x09', header() + task() * 64 + b'\x02\x00\x09\x00\x00', header() + task() * 64 + b'\x02\x00\x02\x00',
        header() + task() * 2 + edge(1, 1) + edge(0, 5), header() + task() * 2 + edge(1, 0) + edge(0, 1, 5000), header(9) + task(0), header() + task(0) + b'\x09',
        header() + task() * 64 + edge(0, 1) + task(), PLAN_A + b'\x03\x00', PLAN_A + b'\x03\x00\x04\x00\x02\x00', PLAN_A + b'\x00' * 3, PLAN_A + bytes(300),
        d.plan_bytes(2, 3, 3, [1] * 64, sorted((s, t, 1) for s in range(5) for t in range(5, 64))[:256]) + edge(0, 0, 9999),
    ]
    for data in bad:
        plan(data)
    for at in (0, 3, 6, 11, 21, 28, 34, 35, 36, 60000):
        step(PLAN_A, at)
    for data in (b'', b'\x04\x00\x11' + bytes(17), b'\x02\x00\x03\x00\x05\x00', b'\x02\x00\x02\x00', b'\x02\x00', edge(9, 9, 65535), header(9, 9, 9)):
        step(data, 0)
    rng = random.Random(7)
    for _ in range(60):
        ends = sorted({(rng.randrange(5), rng.randrange(5)) for _ in range(4)})
        costs = [rng.randint(1, 9) for _ in range(5)]
        data = bytearray(d.plan_bytes(rng.randint(1, 3), 3, 3, costs, [(s, t, rng.randint(0, 9)) for s, t in ends]))
        if rng.random() < 0.6:
            data[rng.randrange(len(data))] = rng.choice([0, 1, 2, 3, 4, 5, 255, rng.randrange(256)])
        if rng.random() < 0.2:
            data = data[:rng.randrange(len(data) + 1)]
        plan(bytes(data))


PLAN_B = d.plan_bytes(3, 3, 3, [5, 20, 10], [(0, 1, 4), (0, 2, 4)])
TASK_0 = (0, 0, 0, 5, 13)
FAR = 4294967295


def reads_b(first, second):
    return [TASK_0, (1, *first, first[1] + 20, first[1] + 20), (2, *second, second[1] + 10, second[1] + 10)]


def tables():
    rows = reads_b((13, 23), (13, 23))
    good = d.table_bytes(rows)
    read(PLAN_B, good, 15)
    read(PLAN_B, good, 17)
    read(PLAN_B, good, 14)
    read(PLAN_B, good, 0)
    read(header(), b'', 0)
    read(header(), b'', 3)
    read(header(), b'\x00', 3)
    read(b'', good, 15)
    read(header() + task() + edge(0, 0), b'', 0)
    # a table that ends between fields, inside a header, inside a body; bytes left over
    for cut in (0, 1, 2, 3, 19, 20, 22, 40, 59):
        read(PLAN_B, good[:cut], 15)
    read(PLAN_B, good + b'\x04', 15)
    read(PLAN_B, good + good[:20], 15)
    # tag, length, core, marks, each at the second field, then two faults in one input
    second = lambda at, value: good[:20 + at] + bytes([value]) + good[21 + at:]
    for at, value in ((0, 3), (0, 0), (1, 1), (2, 16), (2, 18), (3, 3), (3, 255), (4, 1), (8, 1), (12, 1)):
        read(PLAN_B, second(at, value), 15)
    read(PLAN_B, second(0, 5)[:30], 15)
    read(PLAN_B, second(2, 16)[:30], 15)
    read(PLAN_B, second(3, 3)[:50], 15)
    read(PLAN_B, second(3, 9)[:20] + good[20:23] + b'\x03' + d.octets(9, 4) + d.octets(8, 4) + bytes(8) + good[40:], 2)
    read(PLAN_B, second(12, 1) + b'\x00', 2)
    read(PLAN_B, good + b'\x00', 2)
    read(PLAN_A + b'\x09', good, 2)
    # the greatest marks
    read(PLAN_B, d.table_bytes([(2, FAR, FAR, FAR, FAR)] * 3), 15)
    read(PLAN_B, d.table_bytes([(0, 0, 0, 0, FAR), (0, FAR, FAR, FAR, FAR - 1), (0, 0, 0, 0, 0)]), 15)

    flat = [x for row in rows for x in row]
    write(PLAN_B, flat, 60)
    write(PLAN_B, flat, 63)
    write(PLAN_B, flat, 59)
    write(PLAN_B, flat, 0)
    write(header(), [], 0)
    write(header(), [], 2)
    write(header(), [1], 2)
    write(b'', flat, 60)
    for count in (0, 5, 14, 16, 20):
        write(PLAN_B, (flat * 2)[:count], 60)
    change = lambda at, value: flat[:at] + [value] + flat[at + 1:]
    for at, value in ((0, 3), (5, 3), (5, 255), (5, 256), (5, FAR), (10, 258), (6, 24), (7, 12), (7, 44), (8, 22), (8, 44), (9, 42), (14, 0)):
        write(PLAN_B, change(at, value), 60)
    write(PLAN_B, change(5, 3)[:14], 60)
    write(PLAN_B, change(5, 3)[:6] + [99, 1] + flat[8:], 5)
    write(PLAN_B, change(9, 42)[:10] + [9] + flat[11:], 5)
    write(PLAN_B, [0, FAR, FAR, FAR, FAR] + [1, 0, 0, 0, FAR] + [2, 1, 16909060, 16909061, 3405691582], 60)
    write(PLAN_A + b'\x09', flat[:3], 0)


def judged():
    for first, second in (((13, 23), (13, 23)), ((13, 22), (13, 22)), ((13, 17), (17, 21)), ((13, 17), (16, 20)), ((13, 23), (13, 22)), ((13, 19), (19, 23)), ((13, 17), (17, 20))):
        verify(PLAN_B, d.table_bytes(reads_b(first, second)))
    verify(header(), b'')
    verify(header(), b'\x04')
    verify(b'', b'')
    verify(b'', d.table_bytes([TASK_0]))
    rows = reads_b((13, 23), (13, 23))
    change = lambda i, k, x: [row[:k] + (x,) + row[k + 1:] if j == i else row for j, row in enumerate(rows)]
    # each rule alone, at its place; sums of the greatest marks do not wrap
    for i, k, x in ((0, 3, 4), (1, 3, 42), (2, 3, 32), (1, 1, 12), (2, 1, 12), (0, 4, 14), (0, 4, 12), (1, 2, 22), (2, 2, 22), (1, 0, 0), (2, 0, 1), (1, 0, 2), (2, 4, FAR), (1, 4, FAR)):
        verify(PLAN_B, d.table_bytes(change(i, k, x)))
    verify(PLAN_B, d.table_bytes([(0, FAR, FAR, FAR, FAR)] * 3))
    verify(PLAN_B, d.table_bytes([(0, 0, 0, 5, 13), (1, 13, FAR - 20, FAR, FAR), (2, 13, FAR - 10, FAR, FAR)]))
    verify(PLAN_B, d.table_bytes([(0, 0, 0, 5, 13), (1, 13, FAR - 19, FAR, FAR), (2, 13, FAR - 10, FAR, FAR)]))
    # two rules broken: 12 before 13 before 14 before 15, pairs by lower task, then higher
    verify(PLAN_B, d.table_bytes([(0, 0, 0, 5, 13), (1, 12, 22, 41, 41), (2, 13, 23, 33, 33)]))
    verify(PLAN_B, d.table_bytes([(0, 0, 0, 5, 13), (0, 12, 12, 32, 32), (2, 13, 14, 24, 24)]))
    verify(PLAN_B, d.table_bytes([(0, 0, 0, 5, 5), (0, 5, 5, 25, 25), (0, 6, 6, 16, 16)]))
    verify(header(2, 1, 1) + task(1) * 4, d.table_bytes([(0, 0, 0, 9, 9), (1, 0, 0, 5, 5), (1, 4, 4, 6, 6), (0, 8, 8, 10, 10)]))
    verify(header(2, 1, 1) + task(1) * 4, d.table_bytes([(0, 0, 0, 9, 9), (1, 0, 0, 5, 5), (1, 5, 5, 6, 6), (0, 9, 9, 10, 10)]))
    # empty spans, empty windows, windows without words, rivals on one core and many rivals
    verify(header(1, 1, 1) + task(1) * 2, d.table_bytes([(0, 0, 0, 9, 9), (0, 4, 4, 5, 5)]))
    verify(d.plan_bytes(2, 2, 1, [1, 1], [(0, 1, 0)]), d.table_bytes([(0, 0, 0, 1, 1), (1, 1, 1, 2, 2)]))
    wide = d.plan_bytes(8, 2, 1, [1] * 9, [(0, t, 1) for t in range(1, 9)])
    verify(wide, d.table_bytes([(0, 0, 0, 1, 99)] + [(1 + t % 7, 99 + 40 * (t // 7), 115 + 40 * (t // 7), 116 + 40 * (t // 7), 116 + 40 * (t // 7)) for t in range(8)]))
    verify(wide, d.table_bytes([(0, 0, 0, 1, 99)] + [(1 + t % 7, 99, 113, 114, 114) for t in range(8)]))
    rng = random.Random(11)
    for _ in range(80):
        n = rng.randint(1, 5)
        ends = sorted({(rng.randrange(n), rng.randrange(n)) for _ in range(rng.randint(0, 4))})
        data = d.plan_bytes(rng.randint(1, 4), rng.choice([2, 4]), 2, [rng.randint(1, 6) for _ in range(n)], [(s, t, rng.randint(0, 6)) for s, t in ends if s < t])
        _, table = d.make(data, bytes(20 * n))
        rows = [list(d.read_table(d.parse_plan(data), table)[i].five()) for i in range(n)]
        if rng.random() < 0.8:
            i, k = rng.randrange(n), rng.randrange(5)
            rows[i][k] = max(0, rows[i][k] + rng.choice([-2, -1, 1, 2]))
        if rng.random() < 0.3:
            i, j = rng.randrange(n), rng.randrange(n)
            rows[i][1:], rows[j][1:] = rows[j][1:], rows[i][1:]
        verify(data, d.table_bytes(rows))


def played():
    first = d.table_bytes(reads_b((13, 23), (13, 23)))
    whole = [0, 8, 4, 0, 4, 0]
    for served in range(3):
        run(PLAN_B, first, served, whole, 12)
        run(PLAN_B, first, served, [0, 8, 1, 0, 4, 0], 14)
        run(PLAN_B, first, served, [0, 3, 4, 0, 0, 0], 12)
        run(PLAN_B, first, served, [0] * 6, 12)
    run(header(), b'', 1, [], 0)
    run(header(), b'', 1, [], 3)
    # 16, 17 by length and by index, 8; and which comes first
    run(PLAN_B, first, 3, whole, 12)
    run(PLAN_B, first, FAR, whole, 12)
    run(PLAN_B, first, 2, whole[:5], 12)
    run(PLAN_B, first, 2, whole + [0], 12)
    run(PLAN_B, first, 2, [], 12)
    for x in range(6):
        run(PLAN_B, first, 2, whole[:x] + [whole[x] + 1] + whole[x + 1:], 12)
    run(PLAN_B, first, 2, [FAR] * 6, 12)
    run(PLAN_B, first, 2, whole, 11)
    run(PLAN_B, first, 2, whole, 0)
    run(PLAN_B, first, 3, [9], 0)
    run(PLAN_B, first, 2, [9], 0)
    run(PLAN_B, first, 2, [0, 9, 9, 0, 4, 0], 0)
    run(PLAN_B, first[:40], 3, whole, 0)
    run(PLAN_B, d.table_bytes(reads_b((13, 22), (13, 22))), 3, whole, 12)
    run(b'', first, 3, whole, 12)
    # phases that ask while a grant is on the bus, and at the instant at which one ends; words in several grants
    for start in range(10, 26):
        apart = d.plan_bytes(3, 3, 3, [1, 1, 1, 1], [(0, 2, 7), (1, 3, 5)])
        rows = [(0, 0, 0, 1, 21), (1, start - 10, start - 10, start - 9, start + 5), (2, 40, 60, 61, 61), (0, 40, 60, 61, 61)]
        for served in range(3):
            run(apart, d.table_bytes(rows), served, [0, 7, 0, 5, 7, 0, 5, 0], 16)
    rng = random.Random(13)
    for _ in range(40):
        n = rng.randint(1, 7)
        cores = rng.randint(1, 4)
        ends = sorted({(rng.randrange(n), rng.randrange(n)) for _ in range(rng.randint(0, 9))})
        data = d.plan_bytes(cores, rng.choice([2, 4, 6]), 2, [rng.randint(1, 6) for _ in range(n)], [(s, t, rng.randint(0, 12)) for s, t in ends if s < t])
        _, table = d.make(data, bytes(20 * n))
        plan_read = d.parse_plan(data)
        declared = d.all_words(plan_read, d.read_table(plan_read, table))
        most = [declared[i][p] for i in range(n) for p in (0, 1)]
        run(data, table, rng.randrange(cores), [rng.randint(0, w) if rng.random() < 0.5 else w for w in most], 4 * n)


# The makespan of the last candidate's first round is 29, that of its second 24: one that stops at the best so far ends at 27.
FALLING = d.plan_bytes(3, 3, 3, [1, 1, 8, 9, 5, 8], [(0, 3, 6), (0, 5, 3), (1, 5, 3), (2, 4, 2), (2, 5, 1), (3, 4, 1)])


def made():
    for data in (PLAN_A, PLAN_B, FALLING):
        make(data, 20 * d.parse_plan(data).n)
    make(PLAN_A, 63)
    make(PLAN_A, 59)
    make(PLAN_A, 0)
    make(header(), 0)
    make(header(), 3)
    make(b'', 60)
    make(header() + task() + edge(0, 0), 0)
    make(PLAN_A + b'\x09', 0)
    make(header(8, 64, 64) + task(), 20)
    make(d.plan_bytes(8, 64, 1, [65535] * 4, [(0, 1, 4095), (0, 2, 4095), (0, 3, 4095)]), 80)
    rng = random.Random(17)
    for _ in range(40):
        n = rng.randint(1, 9)
        ends = sorted({(rng.randrange(n), rng.randrange(n)) for _ in range(rng.randint(0, 14))})
        data = d.plan_bytes(rng.randint(1, 5), rng.choice([2, 4, 6]), 2, [rng.randint(1, 9) for _ in range(n)], [(s, t, rng.randint(0, 12)) for s, t in ends if s < t])
        make(data, 20 * n)


# Every refusal on every entry point that can give it, each with its side and place.
def refusals():
    rows = reads_b((13, 23), (13, 23))
    good = d.table_bytes(rows)
    flat = [x for row in rows for x in row]
    whole = [0, 8, 4, 0, 4, 0]
    plan_faults = {
        1: PLAN_B[:-1], 2: PLAN_B + b'\x09\x00\x00', 3: PLAN_B + b'\x03\x00\x05' + bytes(5), 4: PLAN_B + edge(0, 3), 5: PLAN_B + edge(0, 1),
        6: header() + task() * 65, 7: header() + task() * 2 + edge(0, 1) + edge(1, 0),
    }
    for number, data in plan_faults.items():
        assert d.verify(data, good)[0] == number
        plan(data)
        read(data, good, 15)
        write(data, flat, 60)
        verify(data, good)
        make(data, 60)
        run(data, good, 0, whole, 12)
    change = lambda at, value: good[:at] + bytes([value]) + good[at + 1:]
    table_faults = {1: good[:-1], 2: change(20, 5), 3: change(22, 18), 9: good[:40], 10: change(43, 3), 11: change(27, 24)}
    for number, data in table_faults.items():
        assert d.verify(PLAN_B, data)[0] == number
        read(PLAN_B, data, 15)
        verify(PLAN_B, data)
        run(PLAN_B, data, 0, whole, 12)
    row = lambda i, new: d.table_bytes([new if j == i else old for j, old in enumerate(rows)])
    rule_faults = {12: row(1, (1, 13, 23, 42, 42)), 13: row(2, (2, 12, 23, 33, 33)), 14: row(2, (1, 13, 23, 33, 33)), 15: row(2, (2, 13, 22, 32, 32))}
    for number, data in rule_faults.items():
        assert d.verify(PLAN_B, data)[0] == number
        read(PLAN_B, data, 15)
        verify(PLAN_B, data)
        run(PLAN_B, data, 0, whole, 12)
    for at in (0, 6, 11, 21):
        step(plan_faults[1], at)
    step(plan_faults[1], 28)
    step(plan_faults[2], len(PLAN_B))
    step(plan_faults[3], len(PLAN_B))


plans()
tables()
judged()
played()
made()
refusals()
# the last case ends inside the length of its first block: all its blocks have no bytes
cases.append((bytes([2, 0]), 'step none then 0'))
with open(os.path.join(ROOT, 'stdin'), 'wb') as f:
    f.write(b''.join(data for data, _ in cases))
with open(os.path.join(ROOT, 'stdout'), 'w') as f:
    f.write(''.join(line + '\n' for _, line in cases))
print('%d cases, %d bytes' % (len(cases), sum(len(data) for data, _ in cases)))
