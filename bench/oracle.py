#!/usr/bin/env python3
"""Answers sheets as docs/RULES.md says. Written from that page alone, as a check on the programs `plan_sheets` and `rehearse`.

  oracle.py [--under PILE] [--exhaustive] [--rehearse] [--named] [SHEET..]
        prints the plan of each sheet, or for the one on standard input.
        --under PILE    plans under another core test, layers first: handover:1/cap:2/edf, or fixed
        --exhaustive    finds the plan by going through every plan of the table; small tables only
        --rehearse      prints what `rehearse` prints
        --named         puts the sheet's name before its answer, as the program `plan_sheets` does
  oracle.py --worked
        checks the worked plans of RULES.md, section 8, by search and by going through every plan
  oracle.py --selfcheck [ROUNDS [SEED]]
        compares, on random lists and tables, each shorter way of this file with the words of RULES.md
"""

import math
import os
import random
import sys
from collections import Counter, namedtuple
from functools import lru_cache
from itertools import product

MAX_SHEET = 65_536
MAX_CORES, MAX_TASKS, MAX_SPAN, MAX_BLOCKS = 8, 24, 1_000_000, 16
MILLION = 1_000_000
MAX_LOAD = 1_000_000_000
MAX_PLANS = 5_000_000  # as many are gone through by --exhaustive

Task = namedtuple("Task", "id period deadline blocks points")
Table = namedtuple("Table", "cores tasks")
Entry = namedtuple("Entry", "period deadline load")
# Of two plans the lesser tuple is the one to choose: the cost, then the core numbers, then the flags of the cuts, False before True.
Plan = namedtuple("Plan", "cost cores cuts")


class Refused(Exception):
    def __init__(self, number, at):
        super().__init__(number, at)
        self.number, self.at = number, at


def span_of(items):
    return math.lcm(*(x.period for x in items))


# ---- Section 6: the sheet -------------------------------------------------------------------------------------------------------

LETTERS = frozenset(b"abcdefghijklmnopqrstuvwxyz")
DIGITS = frozenset(b"0123456789")
OPEN, CLOSE, SPACE, ZERO, LINE_FEED = b"() 0\n"
END = -1  # in place of a byte: the end of the sheet


class Reader:
    """Reads forms as nested tuples: the word, then the items, a number as an int and a form as a tuple."""

    def __init__(self, sheet):
        self.sheet, self.at = sheet, 0

    def peek(self):
        return self.sheet[self.at] if self.at < len(self.sheet) else END

    def need(self, byte):
        if self.peek() != byte:
            raise Refused(1, self.at)
        self.at += 1

    def line(self):
        form = self.form(1)
        self.need(LINE_FEED)
        return form

    def form(self, depth):
        self.need(OPEN)
        items = [self.word()]
        while self.peek() != CLOSE:
            self.need(SPACE)
            items.append(self.item(depth))
        self.need(CLOSE)
        return tuple(items)

    def word(self):
        start = self.at
        while self.peek() in LETTERS and self.at < start + 8:
            self.at += 1
        if self.at == start:
            raise Refused(1, self.at)
        return self.sheet[start : self.at].decode()

    def item(self, depth):
        if self.peek() != OPEN:
            return self.number()
        if depth == 4:
            raise Refused(3, self.at)
        return self.form(depth + 1)

    def number(self):
        start = self.at
        if self.peek() == ZERO:
            self.at += 1
            return 0
        while self.peek() in DIGITS:
            if self.at == start + 7:
                raise Refused(2, start)
            self.at += 1
        if self.at == start:
            raise Refused(1, self.at)
        return int(self.sheet[start : self.at])


def numbers_of(item, word):
    """The numbers of the field `word`, or None if the item is not this field."""
    if isinstance(item, tuple) and item[0] == word and all(isinstance(n, int) for n in item[1:]):
        return item[1:]
    return None


def fields_of(form, word, fields):
    """The numbers of each field of a line's form; `fields` pairs their words with whether they hold any count. None if it is no such line."""
    if form[0] != word or len(form) != 1 + len(fields):
        return None
    found = [numbers_of(item, field) for item, (field, _) in zip(form[1:], fields)]
    if any(f is None or not (any_count or len(f) == 1) for f, (_, any_count) in zip(found, fields)):
        return None
    return found


SHEET_FIELDS = (("cores", False),)
TASK_FIELDS = (("id", False), ("period", False), ("deadline", False), ("blocks", True), ("points", True))


def in_range(task):
    return (
        1 <= task.id <= 9_999_999
        and 1 <= task.period <= MILLION
        and 1 <= task.deadline <= task.period
        and 1 <= len(task.blocks) <= MAX_BLOCKS
        and all(1 <= b <= MILLION for b in task.blocks)
        and len(task.points) == len(task.blocks) - 1
        and all(0 <= c <= MILLION for c in task.points)
    )


def add(tasks, task, at):
    if not in_range(task):
        raise Refused(5, at)
    if any(task.id == other.id for other in tasks):
        raise Refused(6, at)
    if len(tasks) == MAX_TASKS:
        raise Refused(7, at)
    if span_of(tasks + [task]) > MAX_SPAN:
        raise Refused(8, at)
    tasks.append(task)
    tasks.sort(key=lambda t: t.deadline)  # a stable sort: equal deadlines stay in the order of adding


def read_sheet(sheet):
    reader = Reader(sheet)
    found = fields_of(reader.line(), "sheet", SHEET_FIELDS)
    if found is None:
        raise Refused(4, 0)
    cores = found[0][0]
    if not 1 <= cores <= MAX_CORES:
        raise Refused(5, 0)
    tasks = []
    while reader.peek() != END:
        at = reader.at
        found = fields_of(reader.line(), "task", TASK_FIELDS)
        if found is None:
            raise Refused(4, at)
        (ident,), (period,), (deadline,), blocks, points = found
        add(tasks, Task(ident, period, deadline, blocks, points), at)
    return Table(cores, tuple(tasks))


# ---- Section 3: core tests ------------------------------------------------------------------------------------------------------

NONE = math.inf  # longer than every number


def sound(entries):
    return (
        len(entries) <= MAX_TASKS
        and all(a.deadline <= b.deadline for a, b in zip(entries, entries[1:]))
        and all(1 <= e.period <= MILLION and 1 <= e.deadline <= e.period and e.load <= MAX_LOAD for e in entries)
        and span_of(entries) <= MAX_SPAN
    )


class CoreTest:
    """The guard rules over the two functions of a test. `entries` is a tuple. Answers are kept, as a plan's lists come up often."""

    def __init__(self, holds, longest):
        self.holds = lru_cache(1 << 18)(lambda entries: sound(entries) and holds(entries))
        self.longest = lru_cache(1 << 18)(lambda entries, d: longest(entries, d) if sound(entries) and 1 <= d <= MILLION else 0)


def slacks(entries, last):
    """t - demand(t) at each t up to `last` where the demand rises. Between two of them the slack only grows with t."""
    rises = Counter()
    for e in entries:
        for t in range(e.deadline, last + 1, e.period):
            rises[t] += e.load
    due = 0
    for t in sorted(rises):
        due += rises[t]
        yield t - due


def edf_holds(entries):
    # Deadlines are at most periods, so demand(t + span) = demand(t) + demand(span): if no t up to the span is overrun, none is.
    return all(slack >= 0 for slack in slacks(entries, span_of(entries)))


def edf_longest(entries, d):
    # The demand rises first at the first deadline, so that the least slack of the range is at a rise.
    return max(0, min(slacks(entries, d - 1), default=NONE))


def room(entries, k):
    """The largest b of entry k's tolerance, below 0 if there is none. Just behind a multiple of an earlier period the work rises."""
    moments = {entries[k].deadline} | {t for e in entries[:k] for t in range(e.period, entries[k].deadline + 1, e.period)}
    return max(t - entries[k].load - sum(-(-t // e.period) * e.load for e in entries[:k]) for t in moments)


def fixed_holds(entries):
    return all(room(entries, k) >= 0 for k in range(len(entries)))


def fixed_longest(entries, _):
    return max(0, min((room(entries, k) for k in range(len(entries))), default=NONE))


def edf():
    return CoreTest(edf_holds, edf_longest)


def fixed_priority():
    return CoreTest(fixed_holds, fixed_longest)


def cap(c, below):
    c = min(max(c, 1), MILLION)
    return CoreTest(below.holds, lambda entries, d: min(c, below.longest(entries, d)))


def handover(h, below):
    h = min(max(h, 0), 10_000)

    def raised(entries):
        return tuple(e._replace(load=e.load + h) for e in entries)

    return CoreTest(lambda entries: below.holds(raised(entries)), lambda entries, d: max(0, below.longest(raised(entries), d) - h))


def pile(text):
    """The core test that a text such as handover:1/cap:2/edf names."""
    *layers, base = text.split("/")
    test = {"edf": edf, "fixed": fixed_priority}[base]()
    for layer in reversed(layers):
        name, setting = layer.split(":")
        test = {"cap": cap, "handover": handover}[name](int(setting), test)
    return test


# ---- Sections 2 and 4: regions, loads, plans ------------------------------------------------------------------------------------


def cut_cost(task, flags):
    return sum(cost for cost, flag in zip(task.points, flags) if flag)


def load(task, flags):
    return sum(task.blocks) + cut_cost(task, flags)


def regions(task, flags):
    lengths = [task.blocks[0]]
    for block, cost, flag in zip(task.blocks[1:], task.points, flags):
        if flag:
            lengths.append(cost + block)
        else:
            lengths[-1] += block
    return lengths


def entry(task, flags):
    return Entry(task.period, task.deadline, load(task, flags))


def lawful(table, cores, cuts, test):
    for core in set(cores):
        entries = ()
        for task, on, flags in zip(table.tasks, cores, cuts):
            if on == core:
                if max(regions(task, flags)) > test.longest(entries, task.deadline):
                    return False
                entries += (entry(task, flags),)
        if not test.holds(entries):
            return False
    return True


def plan_cost(table, cuts):
    span = span_of(table.tasks)
    return sum(span // task.period * cut_cost(task, flags) for task, flags in zip(table.tasks, cuts))


def all_cuts(task):
    return list(product((False, True), repeat=len(task.points)))


def count_of_plans(table):
    return table.cores ** len(table.tasks) << sum(len(t.points) for t in table.tasks)


def plan_by_going_through_all(table, test):
    """The least lawful plan, or None: the words of section 4 as they stand."""
    best = None
    for cuts in product(*map(all_cuts, table.tasks)):
        cost = plan_cost(table, cuts)
        for cores in product(range(1, table.cores + 1), repeat=len(table.tasks)):
            plan = Plan(cost, cores, cuts)
            if (best is None or plan < best) and lawful(table, cores, cuts, test):
                best = plan
    return best


def cheapest_cuts(task, longest):
    """The least (cost, flags) with no region over `longest`, or None. `tails[i]` is that of the blocks from i on, with a cut before block i."""
    count = len(task.blocks)
    tails = [None] * count + [(0, ())]
    for start in reversed(range(count)):
        ways = []
        length = task.points[start - 1] if start > 0 else 0
        for end in range(start + 1, count + 1):
            length += task.blocks[end - 1]
            if length <= longest and tails[end] is not None:
                cost, flags = tails[end]
                uncut = (False,) * (end - start - 1)
                ways.append((cost, uncut) if end == count else (cost + task.points[end - 1], uncut + (True,) + flags))
        tails[start] = min(ways, default=None)
    return tails[0]


def plan_by_search(table, test):
    """The plan to choose, or None: goes through the core numbers in dictionary order, with each task's cheapest cuts.

    Cheaper cuts mean a lighter load, and a lighter load never hurts a later task (law 1), so each task's cheapest cuts are best for all.
    A beginning is left where a core's list does not hold (no longer list then holds, law 2), where it costs as much as a plan found before,
    or where it passes over an empty core: the same with the two cores' numbers swapped comes first.
    """
    span = span_of(table.tasks)
    best = None

    def place(cost, lists, cores, cuts):
        nonlocal best
        if best is not None and cost >= best.cost:
            return
        if len(cores) == len(table.tasks):
            best = Plan(cost, cores, cuts)
            return
        task = table.tasks[len(cores)]
        for core in range(1, min(table.cores, max(cores, default=0) + 1) + 1):
            found = cheapest_cuts(task, test.longest(lists[core - 1], task.deadline))
            if found is None:
                continue
            extra, flags = found
            grown = lists[core - 1] + (entry(task, flags),)
            if test.holds(grown):
                place(cost + span // task.period * extra, lists[: core - 1] + (grown,) + lists[core:], cores + (core,), cuts + (flags,))

    place(0, ((),) * table.cores, (), ())
    return best


# ---- The text -------------------------------------------------------------------------------------------------------------------


def plan_text(table, plan):
    lines = [f"(plan (cores {table.cores}) (span {span_of(table.tasks)}) (cost {plan.cost}))"]
    for task, core, flags in zip(table.tasks, plan.cores, plan.cuts):
        cuts = "".join(f" {j}" for j, flag in enumerate(flags, 1) if flag)
        lines.append(f"(on {core} (id {task.id}) (cuts{cuts}))")
    return "".join(line + "\n" for line in lines)


def rehearsal_text(table, plan):
    """Every task is released whenever the rules grant it, for one span or 200 ticks: the rows, then jobs and responses."""
    count = len(table.tasks)
    parts = [regions(task, flags) for task, flags in zip(table.tasks, plan.cuts)]
    region = [None] * count  # of the unfinished job: [index, ticks left or None where it waits]
    released, last = [0] * count, [None] * count
    jobs, longest, lines = [0] * count, [0] * count, []
    for clock in range(min(span_of(table.tasks), 200)):
        for i, task in enumerate(table.tasks):
            if (last[i] is None or clock - last[i] >= task.period) and region[i] is None:
                region[i], released[i], last[i] = [0, None], clock, clock
        row = []
        for core in range(1, table.cores + 1):
            mine = [i for i in range(count) if plan.cores[i] == core and region[i]]
            inside = [i for i in mine if region[i][1] is not None]
            if not inside and mine:
                i = min(mine, key=lambda i: (released[i] + table.tasks[i].deadline, i))
                region[i][1] = parts[i][region[i][0]]
                inside = [i]
            row.append(inside[0] + 1 if inside else 0)
            for i in inside:
                region[i][1] -= 1
                if region[i][1] == 0:
                    region[i] = [region[i][0] + 1, None]
                    if region[i][0] == len(parts[i]):
                        region[i] = None
                        jobs[i] += 1
                        longest[i] = max(longest[i], clock + 1 - released[i])
        lines.append("(row" + "".join(f" {place}" for place in row) + ")")
    for i, task in enumerate(table.tasks):
        lines.append(f"(task (id {task.id}) (jobs {jobs[i]}) (response {longest[i]}) (deadline {task.deadline}))")
    return "".join(line + "\n" for line in lines)


def answer(data, test, finder=plan_by_search, text=plan_text):
    try:
        table = read_sheet(data[:MAX_SHEET])
        if finder is plan_by_going_through_all and count_of_plans(table) > MAX_PLANS:
            sys.exit(f"--exhaustive: the table has {count_of_plans(table)} plans")
        plan = finder(table, test)
        if plan is None:
            raise Refused(9, 0)
    except Refused as refused:
        return f"(refused (number {refused.number}) (at {refused.at}))\n"
    return text(table, plan)


# ---- Checks of this file --------------------------------------------------------------------------------------------------------


def table_of(cores, rows):
    """Rows of (period, deadline, blocks, points) in table order; ids are the places."""
    return Table(cores, tuple(Task(k, *row) for k, row in enumerate(rows, 1)))


def cut_flags(task, cuts):
    return tuple(j in cuts for j in range(1, len(task.points) + 1))


A = (20, 4, (1,), ())
FULL = [(4, 4, (2,), ()), (6, 6, (2, 1), (0,))]
OVERRUN = [(2, 2, (1,), ()), (3, 3, (1, 1), (0,))]
FOUR = [
    (1500, 1277, (17, 31, 43, 3, 24, 6), (6, 8, 0, 3, 0)),
    (1500, 1413, (212, 171, 344, 66, 249), (46, 78, 14, 47)),
    (1500, 1498, (146, 347, 136, 37, 121), (90, 32, 7, 19)),
    (6000, 5673, (17, 54, 490, 101, 418, 74), (14, 94, 21, 74, 13)),
]
# Name, pile, cores, tasks; then the answer: cost, cores and cuts, or None.
WORKED = [
    ("region that just fits", "edf", 1, [A, (10, 10, (3,), ())], (0, (1, 1), ((), ()))),
    ("region one too long", "edf", 1, [A, (10, 10, (4,), ())], None),
    ("cut that pays", "edf", 1, [A, (10, 10, (3, 1), (1,))], (2, (1, 1), ((), (1,)))),
    ("cost falls on the later region", "edf", 1, [A, (10, 10, (1, 3), (1,))], None),
    ("overrun after the largest deadline", "edf", 1, OVERRUN, None),
    ("the same on two cores", "edf", 2, OVERRUN, (0, (1, 2), ((), ()))),
    ("full core", "edf", 1, FULL, (0, (1, 1), ((), (1,)))),
    ("full core, fixed priority", "fixed", 1, FULL, None),
    ("equal deadlines", "edf", 1, [(10, 4, (2,), ())] * 2, (0, (1, 1), ((), ()))),
    ("handover", "handover:1/edf", 1, [A, (10, 10, (3,), ())], None),
    ("cap", "cap:2/edf", 1, [A, (10, 10, (2, 1), (0,))], (0, (1, 1), ((), (1,)))),
    ("four tasks on two cores", "edf", 2, FOUR, (21, (1, 1, 2, 2), ((), (), (), (3,)))),
]


def worked():
    for name, test, cores, rows, wanted in WORKED:
        table = table_of(cores, rows)
        if wanted is not None:
            cost, on, cuts = wanted
            wanted = Plan(cost, on, tuple(cut_flags(t, c) for t, c in zip(table.tasks, cuts)))
        for finder in (plan_by_search, plan_by_going_through_all):
            found = finder(table, pile(test))
            if found != wanted:
                sys.exit(f"{name}, {finder.__name__}: {found}, and not {wanted}")
        print(f"{name}: as stated")


def demand(entries, t):
    return sum(e.load * ((t + e.period - e.deadline) // e.period) for e in entries)


def edf_holds_as_stated(entries):
    return all(demand(entries, t) <= t for t in range(1, 3 * span_of(entries) + 1))


def edf_longest_as_stated(entries, d):
    if not entries or entries[0].deadline > d - 1:
        return NONE
    over = [t - demand(entries, t) for t in range(entries[0].deadline, d)]
    return 0 if any(slack < 0 for slack in over) else min(over)


def tolerance_as_stated(entries, k):
    works = [entries[k].load + sum(math.ceil(t / e.period) * e.load for e in entries[:k]) for t in range(entries[k].deadline + 1)]
    fit = [b for b in range(entries[k].deadline + 1) if any(b + works[t] <= t for t in range(1, entries[k].deadline + 1))]
    return max(fit, default=None)


def fixed_holds_as_stated(entries):
    return all(tolerance_as_stated(entries, k) is not None for k in range(len(entries)))


def fixed_longest_as_stated(entries, _):
    tolerances = [tolerance_as_stated(entries, k) for k in range(len(entries))]
    return 0 if None in tolerances else min(tolerances, default=NONE)


PERIODS = (1, 2, 3, 4, 5, 6, 8, 10, 12, 15, 20, 24, 30)
PILES = ("edf", "edf", "fixed", "cap:2/edf", "handover:1/edf", "cap:3/handover:1/fixed", "handover:1/cap:4/edf")


def random_list(rng):
    rows = []
    for _ in range(rng.randint(0, 4)):
        period = rng.choice(PERIODS)
        rows.append(Entry(period, rng.randint(max(1, period // 2), period), rng.randint(0, max(1, period // 2))))
    return tuple(sorted(rows, key=lambda e: e.deadline))


def random_table(rng):
    """Up to two urgent and light tasks, and up to three longer ones that mostly have to be cut on their account."""
    rows = [(rng.choice((20, 30, 60)), rng.randint(4, 6), (1,), ()) for _ in range(rng.randint(0, 2))]
    for _ in range(rng.randint(0, 3)):
        period = rng.choice((15, 20, 30, 60))
        blocks = tuple(rng.randint(1, 2) for _ in range(rng.randint(1, 5)))
        rows.append((period, rng.randint(period // 2, period), blocks, tuple(rng.choice((0, 1, 1, 2)) for _ in blocks[1:])))
    return table_of(rng.choice((1, 1, 2, 2, 3)), sorted(rows, key=lambda r: r[1]))


def selfcheck(rounds, seed):
    rng = random.Random(seed)
    seen = Counter()
    tests = {text: pile(text) for text in PILES}

    def same(what, given, got, stated):
        if got != stated:
            sys.exit(f"{what} of {given}: {got}, and as stated {stated}")
        seen[what] += 1

    for _ in range(rounds):
        entries, d = random_list(rng), rng.randint(1, 40)
        same("edf holds", entries, edf_holds(entries), edf_holds_as_stated(entries))
        same("edf longest", (entries, d), edf_longest(entries, d), edf_longest_as_stated(entries, d))
        same("fixed holds", entries, fixed_holds(entries), fixed_holds_as_stated(entries))
        same("fixed longest", entries, fixed_longest(entries, d), fixed_longest_as_stated(entries, d))
        table = random_table(rng)
        for task in table.tasks:
            longest = rng.randint(1, 8)
            fit = [(cut_cost(task, f), f) for f in all_cuts(task) if max(regions(task, f)) <= longest]
            same("cheapest cuts", (task, longest), cheapest_cuts(task, longest), min(fit, default=None))
        if count_of_plans(table) <= 20_000:
            text = rng.choice(PILES)
            plan = plan_by_search(table, tests[text])
            same("plan" if plan and plan.cost else "plan at no cost" if plan else "no plan", (table, text), plan, plan_by_going_through_all(table, tests[text]))
    print(", ".join(f"{what} {n}" for what, n in sorted(seen.items())))


def main(args):
    if args[:1] == ["--worked"]:
        return worked()
    if args[:1] == ["--selfcheck"]:
        return selfcheck(int((args[1:] or ["2000"])[0]), int((args[2:] or ["1"])[0]))
    test, finder, tells, named, names = "edf", plan_by_search, plan_text, False, []
    rest = iter(args)
    for arg in rest:
        if arg == "--under":
            test = next(rest, "")
        elif arg == "--exhaustive":
            finder = plan_by_going_through_all
        elif arg == "--rehearse":
            tells = rehearsal_text
        elif arg == "--named":
            named = True
        elif arg.startswith("-"):
            sys.exit(__doc__)
        else:
            names.append(arg)
    if not names:
        return print(answer(sys.stdin.buffer.read(), pile(test), finder, tells), end="")
    for name in names:
        with open(name, "rb") as sheet:
            text = answer(sheet.read(), pile(test), finder, tells)
        print(f"{os.path.splitext(os.path.basename(name))[0]}: {text}" if named else text, end="")


if __name__ == "__main__":
    main(sys.argv[1:])
