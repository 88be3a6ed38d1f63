"""The instances that benchmarks/compare runs: families of programs by size and seed, and the list of those to be run.

Each fits into a rule table. `accounts` has Alog's answer sets, and clingo those of its own semantics. The two differ
only where a statement depends on an aggregate and the aggregate's members, through rules, on the statement. In no
family is that so: aggregates stand in rules without a head, or in rules for statements that come after all the
members. Then the members are settled before the aggregate is looked at, under both readings, and the answer sets are
the same.
"""
import random
from functools import partial
from itertools import combinations

from programs import Aggregate, MOST_HEADS, Program


class Numbers:
    """Numbers that look random. Only `random` is used of the generator, whose sequence Python promises to keep."""

    def __init__(self, seed):
        self.source = random.Random(seed)

    def below(self, n):
        return int(self.source.random() * n)

    def between(self, least, greatest):
        return least + self.below(greatest - least + 1)

    def sample(self, things, count):
        left = list(things)
        return [left.pop(self.below(len(left))) for _ in range(count)]

    def pick(self, things):
        return things[self.below(len(things))]

    def shuffled(self, things):
        return self.sample(things, len(things))


def at_most_one(program, statements, by_count=True):
    if by_count:
        program.never(aggregates=[Aggregate("count", ">", 1, [(s, 1) for s in statements])])
    else:
        for pair in combinations(statements, 2):
            program.never(pair)


def one_of(program, row, names):
    """New statements, of which a head chooses one. Where they are too many for a head, `rest` stands for the others."""
    chosen, body = [], []
    while len(names) > MOST_HEADS:
        first, names = names[:MOST_HEADS - 1], names[MOST_HEADS - 1:]
        head = [program.statement(name) for name in first]
        rest = program.statement("rest_%s_%d" % (row, len(chosen)))
        program.rule(head + [rest], body)
        chosen, body = chosen + head, [rest]
    head = [program.statement(name) for name in names]
    program.rule(head, body)
    return chosen + head


def choice(program, name, by_loop):
    """A statement and its opposite, one of which is in: by a head of both, or by an even loop through `not`."""
    yes, no = program.statement(name), program.statement("n" + name)
    if by_loop:
        program.rule([yes], negative=[no])
        program.rule([no], negative=[yes])
    else:
        program.rule([yes, no])
    return yes, no


def queens(n, blocked=0, seed=0):
    """A queen in each row, at most one in each other line, and none on some blocked squares."""
    program, numbers = Program(), Numbers(seed)
    rows = [one_of(program, str(r), ["q%d_%d" % (r, c) for c in range(n)]) for r in range(n)]
    lines = {}
    for r in range(n):
        for c in range(n):
            for line in (("column", c), ("down", r - c), ("up", r + c)):
                lines.setdefault(line, []).append(rows[r][c])
    for line in sorted(lines):
        if len(lines[line]) > 1:
            at_most_one(program, lines[line])
    for square in numbers.sample([s for row in rows for s in row], blocked):
        program.never([square])
    return program


def random_edges(numbers, nodes, count, allowed=lambda a, b: True):
    pairs = [pair for pair in combinations(range(nodes), 2) if allowed(*pair)]
    return sorted(numbers.sample(pairs, count))


def colouring(nodes, edges, seed, hidden=False):
    """Three colours for the nodes of a random graph. If there is to be a hidden colouring, every edge spares it."""
    program, numbers = Program(), Numbers(seed)
    kept = [numbers.below(3) for _ in range(nodes)]
    chosen = random_edges(numbers, nodes, edges, lambda a, b: not hidden or kept[a] != kept[b])
    colours = [one_of(program, str(n), ["%s%d" % (colour, n) for colour in "rgb"]) for n in range(nodes)]
    for a, b in chosen:
        for pair in zip(colours[a], colours[b]):
            program.never(pair)
    return program


def pigeons(count, holes, by_count):
    """Each pigeon in a hole, and no two in one."""
    program = Program()
    places = [one_of(program, str(p), ["p%d_%d" % (p, h) for h in range(holes)]) for p in range(count)]
    for hole in zip(*places):
        at_most_one(program, hole, by_count)
    return program


def tour_edges(numbers, nodes, degree, hidden):
    """So many edges out of each node, among them those of a hidden tour if there is to be one."""
    order = numbers.shuffled(range(nodes))
    follower = {a: order[(i + 1) % nodes] for i, a in enumerate(order)}
    edges = []
    for a in range(nodes):
        first = [follower[a]] if hidden else []
        others = [b for b in range(nodes) if b != a and b not in first]
        edges += [(a, b) for b in sorted(first + numbers.sample(others, degree - len(first)))]
    return edges


def tour(nodes, degree, seed, hidden=True):
    """A tour through all nodes: one edge out of each node, at most one into each, and each node reached from node 0."""
    program, numbers = Program(), Numbers(seed)
    edges = tour_edges(numbers, nodes, degree, hidden)
    used = {}
    for a in range(nodes):
        targets = [b for c, b in edges if c == a]
        for b, s in zip(targets, one_of(program, str(a), ["e%d_%d" % (a, b) for b in targets])):
            used[a, b] = s
    reached = program.statements("r", nodes)
    for b in range(nodes):
        into = [used[edge] for edge in edges if edge[1] == b]
        if len(into) > 1:
            at_most_one(program, into)
        program.never(negative=[reached[b]])
    for a, b in edges:
        program.rule([reached[b]], [used[a, b]] + ([reached[a]] if a else []))
    return program


def companies(count, products, owned, seed):
    """Strategic companies: each product is made by one of a few that can make it, and who owns three strategic ones is
    strategic. The last company has to be among them in a least such set."""
    program, numbers = Program(), Numbers(seed)
    company = program.statements("c", count)
    for _ in range(products):
        program.rule(sorted(numbers.sample(company, numbers.between(2, 4))))
    for _ in range(owned):
        group = numbers.sample(company, 4)
        program.rule(group[:1], sorted(group[1:]))
    program.never(negative=[company[-1]])
    return program


def quantified(outer, inner, terms, wide, seed):
    """Whether some values of the outer statements make one of the terms true for all values of the inner ones. A term
    has a literal of the outer and some of the inner ones. Where a term is true, all inner values are in."""
    program, numbers = Program(), Numbers(seed)
    first = [choice(program, "x%d" % i, False) for i in range(outer)]
    second = [choice(program, "y%d" % i, False) for i in range(inner)]
    full = program.statement("full")
    for pair in second:
        program.rule(pair[:1], [full])
        program.rule(pair[1:], [full])
    for _ in range(terms):
        pairs = numbers.sample(first, 1) + numbers.sample(second, wide)
        program.rule([full], [numbers.pick(pair) for pair in pairs])
    program.never(negative=[full])
    return program


def best_value(items, capacity):
    """The greatest value of a choice of items within the capacity."""
    best = [0] * (capacity + 1)
    for weight, value in items:
        for room in range(capacity, weight - 1, -1):
            best[room] = max(best[room], best[room - weight] + value)
    return best[capacity]


def knapsack(count, seed, more=0):
    """Items of at most so much weight and at least so much value: the most that there is, or more than that."""
    program, numbers = Program(), Numbers(seed)
    items = [(w, w + numbers.between(5, 15)) for w in (numbers.between(10, 60) for _ in range(count))]
    capacity = sum(weight for weight, _ in items) // 2
    demanded = best_value(items, capacity) + more
    taken = [choice(program, "t%d" % i, seed % 2 == 1)[0] for i in range(count)]
    weights = [(s, weight) for s, (weight, _) in zip(taken, items)]
    values = [(s, value) for s, (_, value) in zip(taken, items)]
    program.never(aggregates=[Aggregate("sum", ">", capacity, weights)])
    program.never(aggregates=[Aggregate("sum", "<", demanded, values)])
    return program


def balance(count, most, seed, odd=False):
    """Weights on the two sides of a scale so that they balance. Where their sum is odd, that can't be."""
    program, numbers = Program(), Numbers(seed)
    weights = [numbers.between(most // 2, most) for _ in range(count)]
    if (sum(weights) % 2 == 1) != odd:
        weights[0] += 1
    members = []
    for i, weight in enumerate(weights):
        left, right = choice(program, "l%d" % i, False)
        members += [(left, weight), (right, -weight)]
    program.never(aggregates=[Aggregate("sum", "!=", 0, members)])
    return program


def clauses(variables, count, seed, by_loop):
    """Random clauses of three literals: rules without a head that forbid the opposite of all three."""
    program, numbers = Program(), Numbers(seed)
    pairs = [choice(program, "v%d" % i, by_loop) for i in range(variables)]
    for _ in range(count):
        program.never([numbers.pick(pair) for pair in numbers.sample(pairs, 3)])
    return program


def tangle(count, rules, seed):
    """Random rules of one or two premises among statements, two of which a choice holds up."""
    program, numbers = Program(), Numbers(seed)
    yes, _ = choice(program, "c", False)
    tangled = program.statements("s", count)
    for _ in range(rules):
        head, *needs = numbers.sample(tangled, numbers.between(2, 3))
        program.rule([head], sorted(needs))
    for s in numbers.sample(tangled, 2):
        program.rule([s], [yes])
    return program


def loop(program, name, length):
    """The first statement of a new loop, which nothing holds up as yet."""
    statements = program.statements(name, length)
    for s, after in zip(statements, statements[1:] + statements[:1]):
        program.rule([s], [after])
    return statements[0]


def loops(count, length):
    """Loops that nothing holds up from outside, each through so many statements."""
    program = Program()
    for i in range(count):
        loop(program, "s%d_" % i, length)
    return program


def held_loops(count, length, most):
    """Loops each of which a later choice may hold up; but at most so many of the choices can be taken."""
    program = Program()
    firsts = [loop(program, "s%d_" % i, length) for i in range(count)]
    holders = [choice(program, "h%d" % i, True)[0] for i in range(count)]
    for first, holder in zip(firsts, holders):
        program.rule([first], [holder])
    program.never(aggregates=[Aggregate("count", ">", most, [(s, 1) for s in holders])])
    return program


def gauge(numbers, members):
    """An aggregate over the statements of a layer, that is now true and now false."""
    weighed = [(s, numbers.between(-4, 6)) for s in sorted(numbers.sample(members, min(len(members), 4)))]
    kind = numbers.pick(["count", "sum", "min", "max"])
    least, greatest = {"count": (3, 3), "sum": (0, 4), "min": (-3, 0), "max": (3, 5)}[kind]
    return Aggregate(kind, numbers.pick(["<", "<=", ">=", ">", "!=", "="]), numbers.between(least, greatest), weighed)


def layers(width, depth, rules, wanted, seed):
    """Choices below, and over them layers of statements that follow by aggregates from the layer under them. So many of
    the top layer have to be in."""
    program, numbers = Program(), Numbers(seed)
    under = [choice(program, "c%d" % i, seed % 2 == 1)[0] for i in range(width)]
    for layer in range(depth):
        above = program.statements("a%d_" % layer, width)
        for i in range(rules):
            side = numbers.sample(under, 2)
            sets = [gauge(numbers, under) for _ in range(numbers.between(1, 2))]
            program.rule([above[i % width]], side[:1], side[1:], sets)
        under = above
    program.never(aggregates=[Aggregate("count", "<", wanted, [(s, 1) for s in under])])
    return program


def cover(nodes, edges, most, seed):
    """At most so many nodes of a random graph, and one of them at each edge."""
    program, numbers = Program(), Numbers(seed)
    taken = [choice(program, "t%d" % i, seed % 2 == 1)[0] for i in range(nodes)]
    for a, b in random_edges(numbers, nodes, edges):
        program.never(negative=[taken[a], taken[b]])
    program.never(aggregates=[Aggregate("count", ">", most, [(s, 1) for s in taken])])
    return program


def any_literals(numbers, statements):
    return sorted(numbers.sample(statements, numbers.below(min(3, len(statements) + 1))))


def any_rules(low, high, rules, seed):
    """Rules of every form, for trying the translation. Aggregates are of statements of the lower part, whose own rules
    name no other statements and, but for those without a head, have no aggregates."""
    program, numbers = Program(), Numbers(seed)
    lower, upper = program.statements("l", low), program.statements("u", high)
    for pair in zip(lower[::2], lower[1::2]):
        program.rule(pair)
    for _ in range(rules):
        of_upper = numbers.below(2) == 1
        part, known = (upper, lower + upper) if of_upper else (lower, lower)
        head = sorted(numbers.sample(part, min(len(part), numbers.pick([0, 1, 1, 1, 1, 2, 2, 2, 3]))))
        sets = [any_aggregate(numbers, lower) for _ in range(numbers.below(3))] if of_upper or not head else []
        program.rule(head, any_literals(numbers, known), any_literals(numbers, known), sets)
    return program


def any_aggregate(numbers, statements):
    members = sorted(numbers.sample(statements, numbers.below(len(statements) + 1)))
    kind = numbers.pick(["count", "sum", "min", "max"])
    relation = numbers.pick(["<", "<=", "=", "!=", ">=", ">"])
    return Aggregate(kind, relation, numbers.between(-3, 4), [(s, numbers.between(-3, 3)) for s in members])


# Of each kind, a small instance made from numbers that look random, with few enough answer sets to be listed.
SMALL = {
    "queens": lambda n: queens(n.between(1, 4), n.below(2), n.below(10**6)),
    "colouring": lambda n: colouring(5, n.between(4, 10), n.below(10**6)),
    "pigeons": lambda n: pigeons(n.between(1, 3), n.between(1, 4), n.below(2) == 1),
    "tour": lambda n: tour(n.between(4, 6), n.between(2, 3), n.below(10**6), n.below(2) == 1),
    "companies": lambda n: companies(n.between(6, 12), n.between(3, 8), n.between(2, 8), n.below(10**6)),
    "quantified": lambda n: quantified(n.between(1, 4), n.between(3, 4), n.between(3, 24), n.between(2, 3),
                                       n.below(10**6)),
    "knapsack": lambda n: knapsack(n.between(3, 8), n.below(10**6), n.between(-9, 1)),
    "balance": lambda n: balance(n.between(2, 8), n.between(2, 9), n.below(10**6), n.below(3) == 0),
    "clauses": lambda n: clauses(n.between(3, 8), n.between(8, 30), n.below(10**6), n.below(2) == 1),
    "loops": lambda n: loops(n.between(1, 4), n.between(1, 4)),
    "tangle": lambda n: tangle(n.between(4, 12), n.between(6, 30), n.below(10**6)),
    "held-loops": lambda n: held_loops(n.between(1, 6), n.between(1, 3), n.between(0, 6)),
    "layers": lambda n: layers(n.between(3, 5), n.between(1, 3), n.between(4, 12), n.between(0, 3), n.below(10**6)),
    "cover": lambda n: cover(n.between(3, 8), n.between(2, 3), n.between(1, 4), n.below(10**6)),
    "any": lambda n: any_rules(n.between(1, 8), n.between(1, 6), n.between(2, 16), n.below(10**6)),
}


# The instances that are run: a name, what makes them, and each one's arguments, which are part of its name. Where there
# is a seed, it is the last.
FAMILIES = [
    ("queens", queens,
     [(3,), (4,), (6,), (8,), (9,), (10,), (8, 12, 1), (8, 20, 3), (8, 28, 7), (10, 25, 2), (10, 40, 5)]),
    ("colouring", colouring,
     [(15, 35, 1), (25, 58, 2), (36, 75, 1), (36, 84, 1), (42, 84, 1), (42, 86, 6), (42, 90, 2), (42, 92, 3)]),
    ("hidden-colouring", partial(colouring, hidden=True), [(30, 70, 3), (42, 98, 2)]),
    ("pigeons-count", partial(pigeons, by_count=True), [(5, 4), (7, 6), (8, 7), (9, 8), (10, 9)]),
    ("pigeons-pairs", partial(pigeons, by_count=False), [(6, 5), (9, 8), (8, 8)]),
    ("tour", tour, [(8, 3, 1), (12, 4, 1), (16, 4, 1), (18, 5, 5), (20, 5, 1), (21, 5, 2), (25, 4, 1), (30, 3, 1)]),
    ("tour-free", partial(tour, hidden=False), [(14, 4, 7), (20, 3, 6), (25, 4, 2), (30, 3, 2)]),
    ("companies", companies,
     [(20, 8, 8, 1), (24, 10, 10, 6), (28, 14, 14, 19), (20, 20, 20, 1), (28, 16, 14, 7), (30, 30, 15, 2),
      (30, 40, 20, 3), (40, 50, 40, 1), (128, 128, 128, 1)]),
    ("quantified", quantified,
     [(4, 4, 12, 2, 1), (8, 8, 14, 2, 1), (12, 12, 20, 2, 1), (12, 12, 24, 2, 2), (8, 8, 50, 3, 1), (12, 12, 70, 3, 1),
      (16, 16, 100, 3, 1), (16, 16, 26, 2, 1), (30, 30, 50, 2, 1)]),
    ("knapsack", knapsack, [(12, 1), (16, 2), (20, 1), (22, 1), (30, 2)]),
    ("knapsack-more", partial(knapsack, more=1), [(12, 2), (16, 1), (18, 3), (20, 2)]),
    ("balance", balance, [(10, 50, 1), (18, 1000, 2), (24, 1000, 3), (30, 100000, 4), (64, 100, 4)]),
    ("balance-odd", partial(balance, odd=True), [(12, 100, 1), (16, 100, 1), (20, 1000, 1), (22, 1000, 1)]),
    ("clauses-heads", partial(clauses, by_loop=False),
     [(20, 85, 1), (40, 170, 2), (60, 256, 4), (64, 290, 7), (64, 330, 6)]),
    ("clauses-loops", partial(clauses, by_loop=True), [(30, 128, 1), (50, 213, 3), (64, 273, 5), (64, 280, 8)]),
    ("loops", loops, [(8, 1), (12, 1), (16, 1), (18, 1), (12, 4), (1, 128), (128, 1)]),
    ("held-loops", held_loops, [(6, 2, 3), (8, 2, 4), (12, 2, 6), (20, 4, 3)]),
    ("tangle", tangle, [(20, 30, 1), (60, 120, 2), (126, 250, 4), (126, 300, 3)]),
    ("layers", layers,
     [(8, 3, 16, 4, 1), (10, 6, 40, 3, 1), (10, 6, 40, 7, 2), (12, 6, 50, 8, 3), (16, 6, 50, 4, 4), (16, 6, 50, 10, 5),
      (18, 5, 60, 7, 5)]),
    ("cover", cover,
     [(15, 30, 8, 1), (25, 50, 13, 1), (30, 60, 15, 1), (30, 60, 16, 1), (42, 80, 22, 2), (40, 80, 20, 1),
      (50, 90, 25, 1), (60, 100, 30, 1)]),
]


def instance_name(kind, arguments):
    return "-".join([kind] + [str(argument) for argument in arguments])


INSTANCES = [(instance_name(kind, arguments), partial(make, *arguments))
             for kind, make, tried in FAMILIES for arguments in tried]
