"""Random programs and fields, and random orders. Most programs are built to be in order; then one thing or another is spoilt.

In a program that is in order each lane keeps to its own cells, or all lanes only read, until the next barrier."""

import fields
import texts
from grid import Grid

VALUES = ['a', 'b', 'c', 'd9', 'rain']
COUNTERS = ['i', 'j', 'k', 'wind']
MY_FIELD = ('+', ('lane',), ('*', ('group',), ('lanes',)))
SIZES = [1, 2, 2, 3, 3, 4, 5, 6, 7, 8, 9, 16, 31, 32, 33, 34, 63, 64, 65, 70]


class Maker:
    def __init__(self, random):
        self.random = random
        self.lanes = random.choice(SIZES)
        self.groups = random.choice([1, 1, 1, 2, 2, 3, 5]) if self.lanes < 20 else random.choice([1, 1, 2])
        self.areas = random.choice([0, 1, 2, 2])
        self.modes = ['own'] * self.areas  # of each area of the group's cells: 'own' or 'read'
        self.loops = 0

    def one_in(self, n):
        return self.random.randrange(n) == 0

    # Expressions.

    def constant(self):
        return self.random.choice([0, 0, 1, 1, 2, 3, 5, 7, 10, 31, 32, 33, 1000, 2 ** 31, 2 ** 32 - 1])

    def expression(self, depth=2):
        r = self.random
        if depth == 0 or self.one_in(3):
            return r.choice([self.constant(), ('own', r.choice(VALUES)), ('own', r.choice(VALUES)), ('lane',), ('lane',), ('group',), ('lanes',)])
        return (r.choice('++--**/%<<=='), self.expression(depth - 1), self.expression(depth - 1))

    def by_group(self):
        """The same for all lanes of a group."""
        r = self.random
        e = r.choice([1, 1, 0, 2, ('group',), ('lanes',)])
        return (r.choice('+*%<='), e, r.choice([1, 2, 3, ('group',)])) if self.one_in(2) else e

    def below(self, n):
        return ('%', self.expression(), n)

    # Lines that touch what is the lane's own in this phase.

    def simple(self):
        r = self.random
        choice = r.randrange(9)
        name = r.choice(VALUES)
        if choice <= 2:
            return ('put', name, self.expression())
        if choice == 3:
            return ('write', 'field', MY_FIELD, self.expression())
        if choice == 4:
            return ('read', 'field', name, MY_FIELD)
        if choice == 5:
            many = self.groups * self.lanes
            return ('read', 'field', name, ('+', many, self.below(many)))
        if not self.areas:
            return ('put', name, self.expression(3))
        area = r.randrange(self.areas)
        begin = area * self.lanes
        mine = ('+', begin, ('lane',)) if begin or self.one_in(4) else ('lane',)
        if self.modes[area] == 'read':
            return ('read', 'cell', name, ('+', begin, self.below(('lanes',))))
        return ('write', 'cell', mine, self.expression()) if self.one_in(2) else ('read', 'cell', name, mine)

    def barrier(self):
        """A barrier, behind which the areas are used otherwise."""
        self.modes = [self.random.choice(['own', 'read']) for _ in self.modes]
        return ('barrier',)

    def loop(self, times, lines):
        counter = COUNTERS[self.loops]
        return [('put', counter, 0), ('while', ('<', ('own', counter), times), lines + [('put', counter, ('+', ('own', counter), 1))])]

    def lines(self, depth, together):
        """Some lines; together: all lanes of the group come here."""
        out = []
        for _ in range(self.random.choice([1, 1, 2, 2, 3, 4])):
            out += self.some(depth, together)
        return out

    def some(self, depth, together):
        choice = self.random.randrange(14)
        if depth == 0 or choice < 6:
            return [self.simple()]
        if choice < 8:
            second = self.lines(depth - 1, False) if self.one_in(2) else []
            first = self.lines(depth - 1, False) if not self.one_in(8) else []
            return [('if', self.expression(), first, second)]
        if choice < 10 and self.loops < 4:
            self.loops += 1
            inner = self.lines(depth - 1, False)
            self.loops -= 1
            if self.one_in(3):
                inner.append(('if', self.expression(), [('put', COUNTERS[self.loops], 99)] + self.lines(0, False), []))
            return self.loop(self.below(self.random.choice([2, 3, 5])), inner)
        if not together:
            return [self.simple()]
        if choice == 10:
            return [self.barrier()]
        if choice == 11 and self.loops < 4:
            self.loops += 1
            inner = [self.barrier()] + self.lines(depth - 1, True) + [self.barrier()]
            self.loops -= 1
            return self.loop(self.by_group(), inner) + [self.barrier()]
        if choice == 12:
            e, before, other = self.expression(), self.lines(0, False), self.lines(0, False)
            wait = self.barrier()
            return [('if', e, before + [wait] + self.lines(0, False), other + [wait] + self.lines(0, False))]
        e = self.expression(1)
        wait = self.barrier()
        name = self.random.choice(VALUES)
        return [('put', COUNTERS[-1], e), ('if', ('own', COUNTERS[-1]), [wait], []), ('put', name, self.expression()),
                ('if', ('=', ('own', COUNTERS[-1]), 0), [wait], [])] if self.loops < 4 else [wait]

    # Things spoilt.

    def spoil(self, lines):
        """The lines with one thing changed somewhere."""
        if not lines:
            return [('barrier',)]
        at = self.random.randrange(len(lines))
        line = lines[at]
        if line[0] in ('if', 'while') and not self.one_in(4):
            inner = self.random.randrange(2, len(line))
            spoilt = self.spoil(line[inner])
            if line[0] == 'while' and not spoilt:
                return lines
            return lines[:at] + [line[:inner] + (spoilt,) + line[inner + 1:]] + lines[at + 1:]
        choice = self.random.randrange(6)
        if choice == 0:
            return lines[:at] + lines[at + 1:]
        if choice == 1:
            return lines[:at] + [('barrier',)] + lines[at:]
        if choice == 2:
            place = self.random.choice(['cell', 'field'])
            return lines[:at] + [('write', place, self.expression(1), self.expression(1))] + lines[at:]
        if line[0] == 'write' and choice < 5:
            return lines[:at] + [line[:2] + (self.below(('lanes',)),) + line[3:]] + lines[at + 1:]
        if line[0] == 'read' and choice < 5:
            return lines[:at] + [line[:3] + (self.below(('lanes',)),)] + lines[at + 1:]
        if line[0] in ('if', 'while') and choice < 5:
            return lines[:at] + [(line[0], self.expression()) + line[2:]] + lines[at + 1:]
        other = self.random.randrange(len(lines))
        swapped = list(lines)
        swapped[at], swapped[other] = swapped[other], swapped[at]
        return swapped

    def program(self):
        lines = self.lines(3, True)
        while self.one_in(2) and len(lines) < 30:
            lines += self.lines(2, True)
        for _ in range(self.random.choice([0, 0, 1, 1, 2, 3])):
            lines = self.spoil(lines)
        return (VALUES + COUNTERS, self.areas * self.lanes, lines)

    def field(self, program, most=20000):
        many = self.groups * self.lanes
        cells = [self.random.choice([0, 1, 2, 7, self.random.randrange(2 ** 32)]) for _ in range(2 * many)]
        return fields.Field(self.groups, self.lanes, most, cells)


def well_formed(lines):
    """No while is without a line."""
    return all((line[0] != 'while' or line[2]) and all(well_formed(x) for x in line[2:] if isinstance(x, list)) for line in lines)


def random_program(random):
    """A program and a field."""
    while True:
        maker = Maker(random)
        program = maker.program()
        if well_formed(program[2]) and len(texts.write(program)) < 8000:
            try:
                texts.read(texts.write(program))
            except texts.Refused:
                continue  # in each other too deep, or a line too long
            return program, maker.field(program)


def next_turn(random, style, possible, last):
    """One of the possible turns: at random, the same lane again and again, each lane in turn, or the last lane first."""
    if style == 'in turn':
        behind = [t for t in possible if t > last]
        return min(behind or possible)
    if style == 'backwards':
        return max(possible)
    if last in possible and random.randrange(3):
        return last
    return random.choice(possible)


def random_turns(random, program, field, most):
    """The beginning of some order: turns that can be done, now and then one that can't."""
    grid = Grid(program, field)
    turns = []
    style = random.choice(['mixed', 'mixed', 'in turn', 'backwards'])
    last = ()
    for _ in range(most):
        possible = grid.possible()
        if not possible:
            break
        if random.randrange(10) == 0:
            turns.append(random.choice([('of', random.randrange(field.groups + 1), random.randrange(field.lanes + 1)), ('release', random.randrange(field.groups + 1))]))
        if style == 'mixed' and random.randrange(4) == 0:
            last = ()
        last = next_turn(random, style, possible, last)
        turns.append(last)
        grid.do(last)
    return turns
