"""Rows of 32 lanes in lockstep, as an order of turns over the plain grid: masks, and a stack of joins for each row.

Every look at an if pushes an entry for its lanes, whether or not they part; a look at a while pushes one only if the topmost entry of its lanes is
not that while's already. An entry holds its lanes at its join, the end of the if or the line behind the end of the while. Next is, for a row: if
all lanes of an entry are held at it they go on; else of the topmost entry that has lanes that can step those at the lowest line step
together; else the lanes that are held at the topmost such entry leave it and go on; else the row waits or has ended."""

WIDTH = 32


def flat(lines, out=None):
    """The lines with their jumps: ('if', e, no, join), ('else', to), ('end', None), ('while', e, join), ('end', to); the others as they are."""
    out = [] if out is None else out
    for line in lines:
        here = len(out)
        out.append(None)
        if line[0] == 'if':
            flat(line[2], out)
            no = len(out)
            if line[3]:
                out.append(None)
                no = len(out)
                flat(line[3], out)
                out[no - 1] = ('else', len(out))
            out.append(('end', None))
            out[here] = ('if', line[1], no, len(out) - 1)
        elif line[0] == 'while':
            flat(line[2], out)
            out.append(('end', here))
            out[here] = ('while', line[1], len(out))
        else:
            out[here] = line
    return out


class Entry:
    def __init__(self, line, join, lanes):
        self.line, self.join, self.lanes = line, join, set(lanes)


class Row:
    def __init__(self, grid, code, group, first):
        self.code, self.group = code, group
        self.lanes = {k: grid.groups[group][k] for k in range(first, min(first + WIDTH, grid.lanes))}
        self.at = dict.fromkeys(self.lanes, 0)
        self.stack = []
        self.deepest = 0
        self.steps = 0
        for k in self.lanes:
            self.settle(k)

    def entry_of(self, k):
        for entry in reversed(self.stack):
            if k in entry.lanes:
                return entry
        return None

    def held(self, k):
        entry = self.entry_of(k)
        return entry is not None and entry.join == self.at[k]

    def settle(self, k):
        """Over the lines that are no steps, as far as no join holds the lane."""
        while self.at[k] < len(self.code) and not self.held(k):
            line = self.code[self.at[k]]
            if line[0] == 'else' or (line[0] == 'end' and line[1] is not None):
                self.at[k] = line[1]
            elif line[0] == 'end':
                self.at[k] += 1
            else:
                return

    def leave(self, k, entry):
        entry.lanes.discard(k)
        self.stack = [e for e in self.stack if e.lanes]
        if self.code[entry.line][0] == 'if':
            self.at[k] += 1  # behind its end; a while's join is behind its end already
        self.settle(k)

    def can_step(self, k):
        return self.at[k] < len(self.code) and self.code[self.at[k]][0] != 'barrier' and not self.held(k)

    def next_mask(self):
        """The lanes that step together, or none."""
        while True:
            whole = [e for e in self.stack if all(self.entry_of(k) is e and self.held(k) for k in e.lanes)]
            if whole:
                for k in sorted(whole[-1].lanes):
                    self.leave(k, whole[-1])
                continue
            for entry in [*reversed(self.stack), None]:
                able = [k for k in self.lanes if self.entry_of(k) is entry and self.can_step(k)]
                if able:
                    lowest = min(self.at[k] for k in able)
                    return [k for k in able if self.at[k] == lowest]
            waiting = [e for e in self.stack if any(self.entry_of(k) is e and self.held(k) for k in e.lanes)]
            if not waiting:
                return []
            for k in [k for k in sorted(waiting[-1].lanes) if self.entry_of(k) is waiting[-1] and self.held(k)]:
                self.leave(k, waiting[-1])

    def step(self, mask):
        """The mask's line, as turns; each lane's own line is moved along."""
        self.steps += 1
        here = self.at[mask[0]]
        line = self.code[here]
        if line[0] == 'if':
            self.stack.append(Entry(here, line[3], mask))
        elif line[0] == 'while':
            rest = [k for k in mask if self.entry_of(k) is None or self.entry_of(k).line != here]
            if rest:
                self.stack.append(Entry(here, line[2], rest))
        self.deepest = max([self.deepest] + [sum(k in e.lanes for e in self.stack) for k in mask])
        for k in mask:
            if line[0] in ('if', 'while'):
                self.at[k] = here + 1 if self.lanes[k].value(line[1]) else line[2]
            else:
                self.at[k] = here + 1
            yield ('of', self.group, k)
            if self.lanes[k].wrong:
                for entry in self.stack:
                    entry.lanes.discard(k)
                self.stack = [e for e in self.stack if e.lanes]
                self.at[k] = len(self.code)
            self.settle(k)

    def go_on(self):
        for k in self.lanes:
            self.at[k] += 1
            self.settle(k)


def order(grid):
    """The turns of rows in lockstep, row after row and group after group, to where nothing can go on."""
    code = flat(grid.body)
    grid.rows = []
    for g in range(len(grid.groups)):
        rows = [Row(grid, code, g, first) for first in range(0, grid.lanes, WIDTH)]
        grid.rows += rows
        while True:
            for row in rows:
                mask = row.next_mask()
                while mask:
                    yield from row.step(mask)
                    mask = row.next_mask()
            if not grid.can(('release', g)):
                break
            yield ('release', g)
            for row in rows:
                row.go_on()
