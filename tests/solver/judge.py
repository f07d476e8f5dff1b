"""judge.py: valid divisions by document 01's definition and by nothing else, and random yards. It uses neither the
library nor its clients. A plan is its pens, each (heads, sizes, literals), and its gates, each (pen, pen, literal); a
division is the set of the variables that are true."""
import itertools


def holds(lit, true):
    """Literal 2v holds where variable v is true, 2v + 1 where it is false."""
    return (lit // 2 in true) == (lit % 2 == 0)


def variables(pens, gates):
    """Those of gate literals, and of the size literals of pens with a domain."""
    found = {lit // 2 for _, _, lit in gates}
    return sorted(found.union(lit // 2 for _, sizes, lits in pens if sizes for lit in lits))


def region_weights(pens, gates, true):
    """Each pen's region, named by its first pen, and each region's weight: pens joined by open gates."""
    neighbours = [[] for _ in pens]
    for u, v, lit in gates:
        if not holds(lit, true):
            neighbours[u].append(v)
            neighbours[v].append(u)
    region, weight = {}, {}
    for start in range(len(pens)):
        if start in region:
            continue
        region[start], weight[start], reached = start, 0, [start]
        while reached:
            p = reached.pop()
            weight[start] += pens[p][0]
            for q in neighbours[p]:
                if q not in region:
                    region[q] = start
                    reached.append(q)
    return region, weight


def is_valid(pens, gates, true):
    """No shut gate joins pens of one region; each pen with a domain has its region's weight in the domain, and every
    size literal is true exactly when its meaning is: literal j, that the size is at least entry j + 1."""
    region, weight = region_weights(pens, gates, true)
    if any(holds(lit, true) and region[u] == region[v] for u, v, lit in gates):
        return False
    for p, (_, sizes, lits) in enumerate(pens):
        if sizes:
            size = weight[region[p]]
            if size not in sizes or any(holds(lit, true) != (size >= sizes[j + 1]) for j, lit in enumerate(lits)):
                return False
    return True


def plainly(pens, gates):
    """All valid divisions: every truth value of every variable is tried."""
    known = variables(pens, gates)
    tried = (frozenset(itertools.compress(known, bits)) for bits in itertools.product((0, 1), repeat=len(known)))
    return {true for true in tried if is_valid(pens, gates, true)}


def by_gates(pens, gates):
    """The same for more variables: the gates' variables are tried, and say which sizes and so which literals hold."""
    known = sorted({lit // 2 for _, _, lit in gates})
    found = set()
    for bits in itertools.product((0, 1), repeat=len(known)):
        true = set(itertools.compress(known, bits))
        region, weight = region_weights(pens, gates, true)
        for p, (_, sizes, lits) in enumerate(pens):
            for j, lit in enumerate(lits if sizes else ()):
                meant = weight[region[p]] >= sizes[j + 1]
                if lit // 2 not in known and meant == (lit % 2 == 0):
                    true.add(lit // 2)
        if is_valid(pens, gates, true):
            found.add(frozenset(true))
    return found


def refuted(lits, divisions):
    """Whether no valid division has all of these literals."""
    return not any(all(holds(lit, true) for lit in lits) for true in divisions)


def lines(pens, gates):
    """The plan in yard's lines."""
    made = [["P", heads, len(sizes), *sizes, *lits] for heads, sizes, lits in pens] + [["G", *gate] for gate in gates]
    return "".join("\t".join(map(str, line)) + "\n" for line in made)


def planted(random, weights, ends):
    """Each pen's size in a division: gates are opened at random."""
    true = {g for g in range(len(ends)) if random.random() < 0.55}
    gates = [(u, v, 2 * g + 1) for g, (u, v) in enumerate(ends)]
    region, weight = region_weights([(w, (), ()) for w in weights], gates, true)
    return [weight[region[p]] for p in range(len(weights))]


def domain(random, size, most):
    """A pen's sizes: mostly with the planted one, and up to three others."""
    kept = {size} if random.random() < 0.9 else set()
    return sorted(kept.union(random.randint(0, most) for _ in range(random.randint(0 if kept else 1, 3))))


def yard(random):
    """A small random plan: up to 7 pens and 9 gates, some from a pen to itself, parallel, or with a shared literal."""
    n = random.choice((0, 1, 2, 3, 4, 4, 5, 5, 6, 6, 7, 7))
    weights = [random.randint(0, 6) for _ in range(n)]
    ends = [(random.randrange(n), random.randrange(n)) for _ in range(random.randint(0, 9))] if n else []
    ends = [(u, v) for u, v in ends if u != v or random.random() < 0.2]
    sizes_planted = planted(random, weights, ends)
    free = iter(random.sample(range(50), 40))
    lits = []

    def new_lit():
        if lits and random.random() < 0.1:
            return random.choice(lits) ^ random.randrange(2)
        lits.append(2 * next(free) + random.randrange(2))
        return lits[-1]

    gates = [(u, v, new_lit()) for u, v in ends]
    pens = []
    for p in range(n):
        sizes = domain(random, sizes_planted[p], sum(weights)) if random.random() < 0.5 else []
        pens.append((weights[p], sizes, [new_lit() for _ in sizes[1:]]))
    return pens, gates


def grid(random, rows, columns, share, most_others=2, most_heads=9):
    """A grid with planted groups: with this probability a pen has sizes, the planted one and up to most_others others.
    Gate g has literal 2g, the size literals follow."""
    n = rows * columns
    ends = [(p, p + 1) for p in range(n) if (p + 1) % columns] + [(p, p + columns) for p in range(n - columns)]
    weights = [random.randint(1, most_heads) for _ in range(n)]
    sizes_planted = planted_groups(random, weights, ends)
    lit = 2 * len(ends)
    pens = []
    for p in range(n):
        sizes = []
        if random.random() < share:
            others = {random.randint(1, 4 * most_heads) for _ in range(random.randint(0, most_others))}
            sizes = sorted(others | {sizes_planted[p]})
        pens.append((weights[p], sizes, [lit + 2 * j for j in range(len(sizes) - 1)]))
        lit += 2 * max(len(sizes) - 1, 0)
    return pens, [(u, v, 2 * g) for g, (u, v) in enumerate(ends)]


def planted_groups(random, weights, ends):
    """Each pen's size where pens are merged over gates in random order, up to five a group."""
    region, members = list(range(len(weights))), [[p] for p in range(len(weights))]
    for u, v in random.sample(ends, len(ends)):
        a, b = region[u], region[v]
        if a != b and len(members[a]) + len(members[b]) <= 5:
            members[a] += members[b]
            for p in members[b]:
                region[p] = a
    return [sum(weights[q] for q in members[region[p]]) for p in range(len(weights))]
