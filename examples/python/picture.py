"""picture.py: a division as a picture of the yard, or as a list of its groups. z3_yard.py prints it."""

WIDE = 9  # a pen's cell between its walls


def regions(pens, gates, true):
    """The division's regions, each a rising list of pens, in order of their lowest pen. `true` is the set of the
    variables that are true; a gate is open where its literal is false."""
    region = list(range(len(pens)))
    for u, v, lit in gates:
        if is_open(lit, true) and region[u] != region[v]:
            old, new = max(region[u], region[v]), min(region[u], region[v])
            region = [new if r == old else r for r in region]
    return [[p for p, r in enumerate(region) if r == low] for low in sorted(set(region))]


def is_open(lit, true):
    return (lit // 2 in true) == (lit % 2 == 1)


def columns_of(pens, gates):
    """How many pens the yard has in a row, if the pens stand row by row and every gate is between neighbours; None
    where no such picture can be drawn."""
    fitting = [n for n in range(2, len(pens) + 1) if fits(pens, gates, n)]
    return fitting[0] if fitting and gates else None


def fits(pens, gates, columns):
    """Whether the pens fill rows of this length, and every gate is between neighbours."""
    if columns < 1 or len(pens) % columns:
        return False
    pairs = [sorted((u, v)) for u, v, _ in gates]
    return all(v - u == columns or v - u == 1 and v % columns > 0 for u, v in pairs)


def picture(pens, gates, true, columns):
    """The yard row by row: a wall stands where no open gate is. A group's heads are in its widest part of a row."""
    joined = {tuple(sorted((u, v))) for u, v, lit in gates if is_open(lit, true)}
    labels = heads_by_part(pens, regions(pens, gates, true), joined, columns)
    lines = []
    for first in range(0, len(pens), columns):
        row = range(first, first + columns)
        lines.append("+" + "".join((" " if (p - columns, p) in joined else "-") * WIDE + "+" for p in row))
        lines.append("|" + "".join("{:^{}}".format("pen %d" % p, WIDE) + wall(p, joined) for p in row))
        lines.append("|" + "".join("{:^{}}".format(labels.get(part[0], ""), (WIDE + 1) * len(part) - 1) + "|"
                                   for part in parts(row, joined)))
    lines.append("+" + ("-" * WIDE + "+") * columns)
    return "\n".join(lines)


def wall(p, joined):
    return " " if (p, p + 1) in joined else "|"


def parts(row, joined):
    """A row's pens, in parts that open gates join from pen to pen."""
    made = []
    for p in row:
        if made and (p - 1, p) in joined:
            made[-1].append(p)
        else:
            made.append([p])
    return made


def heads_by_part(pens, groups, joined, columns):
    """For each group the first pen of its widest part of a row, with the group's heads."""
    labels = {}
    for group in groups:
        rows = [[p for p in group if p // columns == r] for r in range(len(pens) // columns + 1)]
        widest = max((part for row in rows for part in parts(row, joined)), key=len)
        labels[widest[0]] = "%d heads" % heads_of(pens, group)
    return labels


def heads_of(pens, group):
    return sum(pens[p].heads for p in group)


def listing(pens, gates, true):
    """The groups, a line each, and the gates that are open."""
    lines = ["%d heads: pens %s" % (heads_of(pens, group), " ".join(map(str, group)))
             for group in regions(pens, gates, true)]
    opened = [str(g) for g, gate in enumerate(gates) if is_open(gate.lit, true)]
    lines.append("open gates: " + (" ".join(opened) or "none"))
    return "\n".join(lines)


def shown(pens, gates, true, columns=None):
    """The picture, with this many pens in a row or with as many as fit; else the list."""
    columns = columns or columns_of(pens, gates)
    return picture(pens, gates, true, columns) if columns else listing(pens, gates, true)
