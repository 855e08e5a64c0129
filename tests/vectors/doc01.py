"""A plain reference of document 01 , from its words
and the readings of docs/DECISIONS.md alone.

Everything is small and slow on purpose.  Sides: 0 neither, 1 plan, 2 table.
An answer ("said") is (number, side, place, values); number 0 is success, then
side and place are 0 and values holds the makespan where one is named.

    verify(plan, table)                      -> said
    make(plan, out)                          -> (said, out_after)   out: bytes
    write(plan, numbers, out)                -> (said, out_after)   out: bytes
    read(plan, table, out)                   -> (said, out_after)   out: numbers
    run(plan, table, served, words, out)     -> (said, out_after)   out: numbers
"""

NEITHER, PLAN, TABLE = 0, 1, 2
BODY = {1: 3, 2: 2, 3: 4, 4: 17}
MAX_TASKS = 64
MAX_EDGES = 256
READ, WRITE = 0, 1


class Refused(Exception):
    """A refusal: number, side, place."""

    def __init__(self, number, side, place):
        super().__init__(number, side, place)
        self.said = (number, side, place, [])


class Plan:
    def __init__(self, cores, time, words, costs, edges):
        self.cores = cores      # number of cores
        self.T = time           # the slot's time
        self.D = words          # the slot's words
        self.costs = costs      # C of each task
        self.edges = edges      # (source, target, words), strictly rising
        self.n = len(costs)

    def __eq__(self, other):
        return self.__dict__ == other.__dict__

    def __repr__(self):
        return "Plan(%r)" % (self.__dict__,)


class Row:
    """One task of a table: core and four marks."""

    def __init__(self, core, R, E, W, F):
        self.core, self.R, self.E, self.W, self.F = core, R, E, W, F

    def five(self):
        return [self.core, self.R, self.E, self.W, self.F]

    def window(self, phase):
        return (self.R, self.E) if phase == READ else (self.W, self.F)


def number(octets):
    """A number, high byte first."""
    value = 0
    for o in octets:
        value = value * 256 + o
    return value


def octets(value, count):
    """A number as bytes, high byte first."""
    return bytes((value >> (8 * (count - 1 - i))) & 255 for i in range(count))


# --- words, slots, time ------------------------------------------------------

def delay(T, D, w, k):
    """Delay of a phase of w words with k counted rivals."""
    slots = (w + D - 1) // D
    full = w // D
    return T * slots * k + T * full + (w % D) * (T // D)


# --- the plan ----------------------------------------------------------------

def step(data, pos):
    """One step of the plan's reader.

    ('none',), ('refused', number, place) or ('field', tag, body, position after).
    """
    if pos >= len(data):
        return ('none',)
    if len(data) - pos < 3:
        return ('refused', 1, pos)
    tag = data[pos]
    if tag not in (1, 2, 3):
        return ('refused', 2, pos)
    size = number(data[pos + 1:pos + 3])
    if size != BODY[tag]:
        return ('refused', 3, pos)
    if len(data) - (pos + 3) < size:
        return ('refused', 1, pos)
    return ('field', tag, bytes(data[pos + 3:pos + 3 + size]), pos + 3 + size)


def tag_in_order(tag, last):
    """May this tag follow the tag `last` (0 at the start of the plan)?"""
    if last == 0:
        return tag == 1
    if last in (1, 2):
        return tag in (2, 3)
    return tag == 3


def parse_plan_or_raise(data):
    data = bytes(data)
    if len(data) == 0:
        raise Refused(1, PLAN, 0)
    pos = 0
    last = 0
    cores = time = words = 0
    costs = []
    edges = []
    while pos < len(data):
        # header cut, tag
        if len(data) - pos < 3:
            raise Refused(1, PLAN, pos)
        tag = data[pos]
        if tag not in (1, 2, 3) or not tag_in_order(tag, last):
            raise Refused(2, PLAN, pos)
        # length, body cut
        size = number(data[pos + 1:pos + 3])
        if size != BODY[tag]:
            raise Refused(3, PLAN, pos)
        body = data[pos + 3:pos + 3 + size]
        if len(body) < size:
            raise Refused(1, PLAN, pos)
        # 6
        if tag == 2 and len(costs) == MAX_TASKS:
            raise Refused(6, PLAN, pos)
        if tag == 3 and len(edges) == MAX_EDGES:
            raise Refused(6, PLAN, pos)
        # 4, 5
        if tag == 1:
            cores, time, words = body[0], body[1], body[2]
            if not (1 <= cores <= 8 and 1 <= time <= 64 and 1 <= words <= 64):
                raise Refused(4, PLAN, pos)
            if time % words != 0:
                raise Refused(4, PLAN, pos)
        elif tag == 2:
            cost = number(body)
            if cost < 1:
                raise Refused(4, PLAN, pos)
            costs.append(cost)
        else:
            source, target, w = body[0], body[1], number(body[2:4])
            if source >= len(costs) or target >= len(costs) or w > 4095:
                raise Refused(4, PLAN, pos)
            if edges and not (edges[-1][0], edges[-1][1]) < (source, target):
                raise Refused(5, PLAN, pos)
            edges.append((source, target, w))
        last = tag
        pos += 3 + size
    if has_cycle(len(costs), edges):
        raise Refused(7, PLAN, len(data))
    return Plan(cores, time, words, costs, edges)


def parse_plan(data):
    """The plan, or (number, side, place)."""
    try:
        return parse_plan_or_raise(data)
    except Refused as r:
        return r.said[:3]


def has_cycle(n, edges):
    """Some task reaches itself in the transitive closure of the edges."""
    reach = [[False] * n for _ in range(n)]
    for s, t, _ in edges:
        reach[s][t] = True
    for k in range(n):
        for i in range(n):
            if reach[i][k]:
                for j in range(n):
                    if reach[k][j]:
                        reach[i][j] = True
    return any(reach[i][i] for i in range(n))


# --- the table ---------------------------------------------------------------

def check_row(plan, five, place):
    """Refusals 10 and 11."""
    core, R, E, W, F = five
    if core >= plan.cores:
        raise Refused(10, TABLE, place)
    if not R <= E <= W <= F:
        raise Refused(11, TABLE, place)


def read_table(plan, data):
    """The rows, after the checks up to the 9 for bytes left over."""
    data = bytes(data)
    pos = 0
    rows = []
    for _ in range(plan.n):
        if pos == len(data):
            raise Refused(9, TABLE, len(data))
        if len(data) - pos < 3:
            raise Refused(1, TABLE, pos)
        if data[pos] != 4:
            raise Refused(2, TABLE, pos)
        if number(data[pos + 1:pos + 3]) != BODY[4]:
            raise Refused(3, TABLE, pos)
        body = data[pos + 3:pos + 20]
        if len(body) < 17:
            raise Refused(1, TABLE, pos)
        five = [body[0]] + [number(body[1 + 4 * i:5 + 4 * i]) for i in range(4)]
        check_row(plan, five, pos)
        rows.append(Row(*five))
        pos += 20
    if pos < len(data):
        raise Refused(9, TABLE, 20 * plan.n)
    return rows


def row_bytes(five):
    core, R, E, W, F = five
    return (bytes([4]) + octets(17, 2) + bytes([core])
            + octets(R, 4) + octets(E, 4) + octets(W, 4) + octets(F, 4))


# --- rules of a good table ---------------------------------------------------

def declared_words(edges, core_of, task):
    """(read words, write words) of a task; core_of maps the tasks that count."""
    reads = writes = 0
    for s, t, w in edges:
        if s in core_of and t in core_of and core_of[s] != core_of[t]:
            if t == task:
                reads += w
            if s == task:
                writes += w
    return (reads, writes)


def overlap(words_a, window_a, words_b, window_b):
    """Both carry words, and each starts before the other ends."""
    if words_a == 0 or words_b == 0:
        return False
    return window_a[0] < window_b[1] and window_b[0] < window_a[1]


def rivals(cores, rows, words, task, phase):
    """Counted rivals of a phase; rows and words map tasks to theirs."""
    count = 0
    for other in rows:
        if rows[other].core == rows[task].core:
            continue
        for p in (READ, WRITE):
            if overlap(words[task][phase], rows[task].window(phase),
                       words[other][p], rows[other].window(p)):
                count += 1
    return min(count, cores - 1)


def makespan(rows):
    """Greatest F, or 0 with no tasks."""
    best = 0
    for row in rows:
        best = max(best, row.F)
    return best


def all_words(plan, rows):
    """Declared (read, write) words of every task of a whole table."""
    core_of = {i: rows[i].core for i in range(plan.n)}
    return {i: declared_words(plan.edges, core_of, i) for i in range(plan.n)}


def check_rules(plan, rows):
    """Refusals 12, 13, 14, 15 in this order."""
    n = plan.n
    for i in range(n):
        if rows[i].W - rows[i].E < plan.costs[i]:
            raise Refused(12, TABLE, 20 * i)
    for s, t, _ in plan.edges:
        if rows[t].R < rows[s].F:
            raise Refused(13, TABLE, 20 * t)
    for low in range(n):
        for high in range(low + 1, n):
            a, b = rows[low], rows[high]
            if a.core == b.core and a.R < b.F and b.R < a.F:
                raise Refused(14, TABLE, 20 * high)
    by_task = {i: rows[i] for i in range(n)}
    words = all_words(plan, rows)
    for i in range(n):
        for phase in (READ, WRITE):
            k = rivals(plan.cores, by_task, words, i, phase)
            start, end = rows[i].window(phase)
            if end - start < delay(plan.T, plan.D, words[i][phase], k):
                raise Refused(15, TABLE, 20 * i)


def verify_or_raise(plan_bytes, table_bytes):
    plan = parse_plan_or_raise(plan_bytes)
    rows = read_table(plan, table_bytes)
    check_rules(plan, rows)
    return plan, rows


def verify(plan_bytes, table_bytes):
    try:
        _, rows = verify_or_raise(plan_bytes, table_bytes)
    except Refused as r:
        return r.said
    return (0, 0, 0, [makespan(rows)])


# --- the list rule -----------------------------------------------------------

def list_order(plan):
    """Repeatedly the lowest-numbered task whose sources are all taken."""
    order = []
    while len(order) < plan.n:
        for i in range(plan.n):
            if i not in order and all(s in order for s, t, _ in plan.edges if t == i):
                order.append(i)
                break
    return order


def place_task(plan, task, core, exclusive, lengths, words, placed):
    """Step 2 for one task: its row, given the rows of the earlier-listed."""
    read_len, write_len = lengths[task]
    cost = plan.costs[task]

    def row_at(R):
        return Row(core, R, R + read_len, R + read_len + cost,
                   R + read_len + cost + write_len)

    def clashes(R):
        mine = row_at(R)
        for other, row in placed.items():
            if row.core == core:
                continue
            for p in (READ, WRITE):
                for q in (READ, WRITE):
                    if overlap(words[task][p], mine.window(p),
                               words[other][q], row.window(q)):
                        return True
        return False

    R = 0
    for s, t, _ in plan.edges:
        if t == task:                       # every source is listed earlier
            R = max(R, placed[s].F)
    for row in placed.values():
        if row.core == core:
            R = max(R, row.F)
    if exclusive:
        # A clash ends only where one of the two windows comes to an obstacle's
        # end; so the least free time is R itself or one of these.
        ends = [row.window(q)[1] for row in placed.values() for q in (READ, WRITE)]
        tries = [R] + ends + [e - (read_len + cost) for e in ends]
        R = min(r for r in tries if r >= R and not clashes(r))
    return row_at(R)


def candidate(plan, listed, core_of, mode_of):
    """Rows of the listed tasks for the given cores and modes (True: exclusive)."""
    words = {i: declared_words(plan.edges, core_of, i) for i in listed}
    # 1
    lengths = {i: [delay(plan.T, plan.D, words[i][p], 0) for p in (READ, WRITE)]
               for i in listed}
    while True:
        # 2
        placed = {}
        for i in listed:
            placed[i] = place_task(plan, i, core_of[i], mode_of[i], lengths, words, placed)
        # 3
        grew = False
        grown = {}
        for i in listed:
            grown[i] = []
            for p in (READ, WRITE):
                k = rivals(plan.cores, placed, words, i, p)
                need = delay(plan.T, plan.D, words[i][p], k)
                grown[i].append(max(lengths[i][p], need))
                if lengths[i][p] < need:
                    grew = True
        lengths = grown
        if not grew:
            return placed


def make_rows(plan):
    """The rows of the list rule, in task order."""
    order = list_order(plan)
    core_of = {}
    mode_of = {}
    rows = {}
    for count in range(1, plan.n + 1):
        listed = order[:count]
        new = listed[-1]
        best = None
        for core in range(plan.cores):
            for exclusive in (False, True):
                placed = candidate(plan, listed, {**core_of, new: core},
                                   {**mode_of, new: exclusive})
                span = makespan(placed.values())
                if best is None or span < best[0]:
                    best = (span, core, exclusive, placed)
        _, core_of[new], mode_of[new], rows = best
    return [rows[i] for i in range(plan.n)]


def put_front(front, out):
    """out with its front replaced, in out's own kind (bytes or list)."""
    return type(out)(front) + out[len(front):]


def make(plan_bytes, out):
    out = bytes(out)
    try:
        plan = parse_plan_or_raise(plan_bytes)
        if len(out) < 20 * plan.n:
            raise Refused(8, NEITHER, 0)
    except Refused as r:
        return (r.said, out)
    rows = make_rows(plan)
    front = b''.join(row_bytes(row.five()) for row in rows)
    return ((0, 0, 0, [makespan(rows)]), put_front(front, out))


# --- the writer and the reader of table values -------------------------------

def write(plan_bytes, numbers, out):
    out = bytes(out)
    try:
        plan = parse_plan_or_raise(plan_bytes)
        if len(numbers) != 5 * plan.n:
            raise Refused(9, TABLE, 20 * plan.n)
        fives = [list(numbers[5 * i:5 * i + 5]) for i in range(plan.n)]
        for i in range(plan.n):
            check_row(plan, fives[i], 20 * i)
        if len(out) < 20 * plan.n:
            raise Refused(8, NEITHER, 0)
    except Refused as r:
        return (r.said, out)
    front = b''.join(row_bytes(five) for five in fives)
    return ((0, 0, 0, []), put_front(front, out))


def read(plan_bytes, table_bytes, out):
    out = list(out)
    try:
        plan = parse_plan_or_raise(plan_bytes)
        rows = read_table(plan, table_bytes)
        if len(out) < 5 * plan.n:
            raise Refused(8, NEITHER, 0)
    except Refused as r:
        return (r.said, out)
    front = [x for row in rows for x in row.five()]
    return ((0, 0, 0, []), put_front(front, out))


# --- the bus run -------------------------------------------------------------

class Phase:
    def __init__(self, core, start, words):
        self.core = core
        self.start = start
        self.left = words
        self.end = start        # of its last grant; its start with no words
        self.any = words > 0


class Grant:
    def __init__(self, core, begin, end, words):
        self.core, self.begin, self.end, self.words = core, begin, end, words


def play(plan, phases, served):
    """All grants of the run, in order; sets the phases' ends."""
    grants = []
    now = 0
    while any(p.left > 0 for p in phases):
        asking = [p for p in phases if p.left > 0 and p.start <= now]
        if not asking:
            now = min(p.start for p in phases if p.left > 0)
            continue
        chosen = None
        for turn in range(1, plan.cores + 1):
            core = (served + turn) % plan.cores
            mine = [p for p in asking if p.core == core]
            if mine:
                # in an accepted table a core's earlier phase has ended
                assert len(mine) == 1, "two phases of one core ask"
                chosen = mine[0]
                break
        words = min(plan.D, chosen.left)
        grant = Grant(chosen.core, now, now + words * (plan.T // plan.D), words)
        grants.append(grant)
        chosen.left -= words
        chosen.end = grant.end
        served = chosen.core
        now = grant.end
    return grants


def waits(phase, grants):
    if not phase.any:
        return 0
    return sum(1 for g in grants if g.core != phase.core
               and g.begin < phase.end and g.end > phase.start)


def run_values(plan, rows, served, words):
    phases = []
    for i in range(plan.n):
        for p in (READ, WRITE):
            phases.append(Phase(rows[i].core, rows[i].window(p)[0], words[2 * i + p]))
    grants = play(plan, phases, served)
    assert sum(g.words for g in grants) == sum(words)
    assert sum(g.end - g.begin for g in grants) == sum(words) * (plan.T // plan.D)
    for i in range(plan.n):
        for p in (READ, WRITE):
            assert phases[2 * i + p].end <= rows[i].window(p)[1], "outside its window"
    values = []
    for phase in phases:
        values += [phase.end, waits(phase, grants)]
    return values


def run(plan_bytes, table_bytes, served, words, out):
    out = list(out)
    words = list(words)
    try:
        plan, rows = verify_or_raise(plan_bytes, table_bytes)
        if served >= plan.cores:
            raise Refused(16, NEITHER, 0)
        if len(words) != 2 * plan.n:
            raise Refused(17, NEITHER, len(words))
        declared = all_words(plan, rows)
        for index in range(2 * plan.n):
            if words[index] > declared[index // 2][index % 2]:
                raise Refused(17, NEITHER, index)
        if len(out) < 4 * plan.n:
            raise Refused(8, NEITHER, 0)
    except Refused as r:
        return (r.said, out)
    return ((0, 0, 0, []), put_front(run_values(plan, rows, served, words), out))


# --- the two programs --------------------------------------------------------

def refusal_line(said):
    return "refused %d at %d\n" % (said[0], said[2])


def make_program(stdin):
    said, table = make(stdin[:4096], bytes(20 * MAX_TASKS))
    if said[0] != 0:
        return refusal_line(said)
    plan = parse_plan(stdin[:4096])
    lines = ["makespan %d\n" % said[3][0]]
    for i, row in enumerate(read_table(plan, table[:20 * plan.n])):
        lines.append("%d %d %d %d %d %d\n" % tuple([i] + row.five()))
    return ''.join(lines)


def verify_program(plan_file, table_file):
    said = verify(plan_file[:4096], table_file[:4096])
    if said[0] != 0:
        return refusal_line(said)
    return "accepted %d\n" % said[3][0]


# --- builders for tests ------------------------------------------------------

def field(tag, body):
    return bytes([tag]) + octets(len(body), 2) + bytes(body)


def plan_bytes(cores, T, D, costs, edges):
    data = field(1, bytes([cores, T, D]))
    for c in costs:
        data += field(2, octets(c, 2))
    for s, t, w in edges:
        data += field(3, bytes([s, t]) + octets(w, 2))
    return data


def table_bytes(fives):
    return b''.join(row_bytes(five) for five in fives)
