"""What follows from the ops of a map: which variables are live, how far their next uses are, and the board of each point.

It is computed anew from the definitions (docs/DEFINITIONS.md: liveness, distances, boards), for the scripts beside this one; the compiler has
no part in it.
"""
AREAS = ("eax", "ebx", "ecx", "edx")
LOWS = ("al", "bl", "cl", "dl")
HIGHS = ("ah", "bh", "ch", "dh")
NEVER = float("inf")


# ---- what is live


class Flow:
    """A function's graph: its points in order, where each leads, and what is live."""

    def __init__(self, f):
        self.f, self.points = f, {p.number: p for p in f.points()}
        self.next = {}
        for block in f.blocks:
            for point, after in zip(block, block[1:]):
                self.next[point.number] = [after.number]
            self.next[block[-1].number] = [f.blocks[b][0].number for b in dict.fromkeys(block[-1].op.blocks)]
        self.before = {p: set() for p in self.points}
        self.after = {p: set() for p in self.points}
        leads = {p: [] for p in self.points}
        for p, others in self.next.items():
            for q in others:
                leads[q].append(p)
        self.leads, waiting = leads, list(self.points)
        while waiting:
            p = waiting.pop()
            op = self.points[p].op
            after = set().union(*(self.before[q] for q in self.next[p])) if self.next[p] else set()
            before = (after - {op.writes}) | set(op.reads)
            self.after[p] = after
            if before != self.before[p]:
                self.before[p] = before
                waiting += leads[p]

    def distances(self, v):
        """From each point the steps to the next use of a variable, counted from the point itself."""
        found = {p: 0 for p, point in self.points.items() if v in point.op.reads}
        layer, steps = list(found), 0
        while layer:
            steps += 1
            further = []
            for p in layer:
                # The variable comes to p only where p itself is the start, or doesn't write what it doesn't read.
                if steps > 1 and self.points[p].op.writes == v:
                    continue
                for q in self.leads[p]:
                    if q not in found:
                        found[q] = steps
                        further.append(q)
            layer = further
        return found


# ---- boards


def fixed_of(op):
    """The operand and the result that an op fixes, each with its register, and the rows of registers that it takes besides: u the upper,
    l the lower."""
    reads, writes = op.reads, op.writes
    if op.name in ("shl", "sar", "shr"):
        return {reads[1]: "cl"}, {}, {}
    if op.name in ("div", "udiv"):
        return {reads[0]: "eax"}, {writes: "eax"}, {"edx": "ul"}
    if op.name in ("rem", "urem"):
        return {reads[0]: "eax"}, {writes: "edx"}, {"eax": "l", "edx": "u"}
    if op.name in ("call", "putchar", "getchar") and writes is not None:
        return {}, {writes: "eax"}, {"ecx": "l", "edx": "l"}
    if op.name in ("call", "exit"):
        return {}, {}, {"eax": "l", "ecx": "l", "edx": "l"}
    return {}, {}, {}


def columns_of(place):
    """The area and the columns of a register, or of a byte of one."""
    if place in AREAS:
        return AREAS.index(place), (0, 1)
    return ((LOWS.index(place), (0,)) if place in LOWS else (HIGHS.index(place), (1,)))


def cells_of(kind, place):
    area, columns = columns_of(place)
    return {(area, column, row) for column in columns for row in {"X": "u", "Y": "ul", "Z": "l"}[kind]}


def free_cells(op):
    operands, results, taken = fixed_of(op)
    free = {(area, column, row) for area in range(4) for column in (0, 1) for row in "ul"}
    for place in operands.values():
        free -= cells_of("X", place)
    for place in results.values():
        free -= cells_of("Z", place)
    for place, rows in taken.items():
        free -= {(AREAS.index(place), column, row) for column in (0, 1) for row in rows}
    return free


def areas_of(free):
    letters = {"ul": "b", "u": "u", "l": "l", "": "n"}
    return ["".join(letters["".join(row for row in "ul" if (area, column, row) in free)] for column in (0, 1)) for area in range(4)]


def pieces_of(flow, point):
    """The pieces of a point's board, as (kind, width, variable), and those that are fixed, each with its register."""
    op, before, after = point.op, flow.before[point.number], flow.after[point.number]
    operands, results, _ = fixed_of(op)
    pieces, fixed = [], []
    for v in sorted(before | ({op.writes} - {None})):
        width = flow.f.variables[v][0]
        if v in before:
            piece = ("Y" if v in after and v != op.writes else "X", width, v)
            (fixed.append((piece, operands[v])) if v in operands else pieces.append(piece))
        if v == op.writes:
            piece = ("Z", width, v)
            (fixed.append((piece, results[v])) if v in results else pieces.append(piece))
    return pieces, fixed


def spill_order(pieces, distances, point):
    """The variables of these pieces, the one with the furthest next use first, the smaller of two alike."""
    return sorted({v for _, _, v in pieces}, key=lambda v: (-distances[v].get(point.number, NEVER), v))
