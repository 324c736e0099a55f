"""The grid of lanes, one lane at a time, with the full list of touches. Nothing here is fast and nothing is clever.

A lane is a Python generator: it hands out STEP or BARRIER, which is what it will do next, and does it when it is resumed.
"""

from collections import namedtuple

WHOLE = 2 ** 32
STEP, BARRIER, ENDED = 'step', 'barrier', 'ended'

# A touch: where is 'field', or the number of the group whose cell it is.
Touch = namedtuple('Touch', 'where cell group lane phase wrote')


def race(a, b):
    if (a.where, a.cell) != (b.where, b.cell) or not (a.wrote or b.wrote):
        return False
    return a.group != b.group or (a.phase == b.phase and a.lane != b.lane)


def race_line(a, b):
    """How a race is printed: the touch of the lower group, then of the lower lane, first."""
    a, b = sorted((a, b), key=lambda t: (t.group, t.lane))
    place = 'field' if a.where == 'field' else 'cell'
    words = ['race %s %d' % (place, a.cell)]
    for t in (a, b):
        words.append('group %d lane %d phase %d %s' % (t.group, t.lane, t.phase, 'wrote' if t.wrote else 'read'))
    return ' '.join(words) + '\n'


def apply(operator, a, b):
    if operator == '+':
        return (a + b) % WHOLE
    if operator == '-':
        return (a - b) % WHOLE
    if operator == '*':
        return (a * b) % WHOLE
    if operator == '/':
        return a // b if b else 0
    if operator == '%':
        return a % b if b else 0
    if operator == '<':
        return 1 if a < b else 0
    return 1 if a == b else 0


class Wrong(Exception):
    """The lane touched a cell that isn't there."""


class Lane:
    def __init__(self, grid, group, number):
        self.grid, self.group, self.number = grid, group, number
        self.own = {name: 0 for name in grid.names}
        self.wrong = False
        self.doing = self.do(grid.body)
        self.next = next(self.doing, ENDED)

    def go(self):
        """Do what is next."""
        try:
            self.next = next(self.doing, ENDED)
        except Wrong:
            self.next, self.wrong = ENDED, True

    def value(self, e):
        if isinstance(e, int):
            return e
        if e[0] == 'own':
            return self.own[e[1]]
        if e[0] == 'lane':
            return self.number
        if e[0] == 'group':
            return self.group
        if e[0] == 'lanes':
            return self.grid.lanes
        return apply(e[0], self.value(e[1]), self.value(e[2]))

    def cells_at(self, place, cell, wrote):
        """The cells of the field or of the group; the touch is noted."""
        cells = self.grid.field if place == 'field' else self.grid.cells[self.group]
        if cell >= len(cells):
            raise Wrong()
        where = 'field' if place == 'field' else self.group
        self.grid.touch(Touch(where, cell, self.group, self.number, self.grid.phases[self.group], wrote))
        return cells

    def do(self, lines):
        for line in lines:
            if line[0] == 'barrier':
                yield BARRIER
            elif line[0] == 'while':
                yield STEP
                while self.value(line[1]):
                    yield from self.do(line[2])
                    yield STEP
            else:
                yield STEP
                if line[0] == 'put':
                    self.own[line[1]] = self.value(line[2])
                elif line[0] == 'read':
                    cell = self.value(line[3])
                    self.own[line[2]] = self.cells_at(line[1], cell, False)[cell]
                elif line[0] == 'write':
                    cell, number = self.value(line[2]), self.value(line[3])
                    self.cells_at(line[1], cell, True)[cell] = number
                else:
                    yield from self.do(line[2] if self.value(line[1]) else line[3])


class Grid:
    def __init__(self, program, field):
        self.names, shared, self.body = program
        self.lanes = field.lanes
        self.field = list(field.cells)
        self.cells = [[0] * shared for _ in range(field.groups)]
        self.phases = [0] * field.groups
        self.groups = [[Lane(self, g, k) for k in range(field.lanes)] for g in range(field.groups)]
        self.steps = 0
        self.touches = {}  # for each place and cell, all its touches in order
        self.races = []  # pairs of touches that race, an earlier and a later one
        self.most_races = 1000000

    def touch(self, t):
        earlier = self.touches.setdefault((t.where, t.cell), [])
        for s in earlier:
            if len(self.races) < self.most_races and race(s, t):
                self.races.append((s, t))
        earlier.append(t)

    # Turns: ('of', group, lane) and ('release', group).

    def can(self, turn):
        if turn[1] >= len(self.groups):
            return False
        lanes = self.groups[turn[1]]
        if turn[0] == 'of':
            return turn[2] < len(lanes) and lanes[turn[2]].next == STEP
        return all(lane.next == BARRIER for lane in lanes)

    def do(self, turn):
        lanes = self.groups[turn[1]]
        if turn[0] == 'of':
            self.steps += 1
            lanes[turn[2]].go()
        else:
            self.phases[turn[1]] += 1
            for lane in lanes:
                lane.go()

    def possible(self):
        """All turns that can be done now."""
        turns = [('of', g, k) for g, lanes in enumerate(self.groups) for k, lane in enumerate(lanes) if lane.next == STEP]
        return turns + [('release', g) for g in range(len(self.groups)) if self.can(('release', g))]

    def stuck(self):
        """The groups in which no lane can step, some wait, and some have ended."""
        return [g for g, lanes in enumerate(self.groups) if {lane.next for lane in lanes} == {BARRIER, ENDED}]

    def wrong(self):
        return [(g, k) for g, lanes in enumerate(self.groups) for k, lane in enumerate(lanes) if lane.wrong]


def order(grid, turns):
    """The given turns, then one lane after the other, to where nothing can go on: the lowest group that has a turn, in it the
    lowest lane that can step, and the group goes on when all its lanes wait. Turns that can't be done are left out."""
    for turn in turns:
        if grid.can(turn):
            yield turn
    for g, lanes in enumerate(grid.groups):
        while True:
            for k, lane in enumerate(lanes):
                while lane.next == STEP:
                    yield ('of', g, k)
            if not grid.can(('release', g)):
                break
            yield ('release', g)


def read_turns(data):
    """Turns, one on a line: 'of 0 1' or 'release 0'."""
    turns = []
    for line in data.decode().splitlines():
        words = line.split(' ')
        turns.append((words[0],) + tuple(int(w) for w in words[1:]))
    return turns


def write_turns(turns):
    return ''.join(' '.join(str(w) for w in turn) + '\n' for turn in turns).encode()
