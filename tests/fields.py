"""A field's bytes: groups and lanes (two bytes each), steps granted (eight), how many cells (four), each cell (four); low byte first."""

from texts import Refused


class Field:
    def __init__(self, groups, lanes, steps, cells):
        self.groups, self.lanes, self.steps, self.cells = groups, lanes, steps, list(cells)


def number(some):
    return int.from_bytes(some, 'little')


def read(data):
    """The field, or Refused with 5 at the first byte in fault."""
    found = []
    for place, size, least, most in ((0, 2, 1, 1024), (2, 2, 1, 1024), (4, 8, 0, 2 ** 40), (12, 4, 0, 2 ** 24)):
        if len(data) < place + size:
            raise Refused(5, len(data))
        n = number(data[place:place + size])
        if not least <= n <= most:
            raise Refused(5, place)
        found.append(n)
    groups, lanes, steps, many = found
    wanted = 16 + 4 * many
    if len(data) != wanted:
        raise Refused(5, min(len(data), wanted))
    return Field(groups, lanes, steps, (number(data[i:i + 4]) for i in range(16, wanted, 4)))


def write(field):
    out = field.groups.to_bytes(2, 'little') + field.lanes.to_bytes(2, 'little')
    out += field.steps.to_bytes(8, 'little') + len(field.cells).to_bytes(4, 'little')
    return out + b''.join(c.to_bytes(4, 'little') for c in field.cells)


def printed(cells):
    """'field', then the cells in hexadecimal, eight on a line."""
    out = 'field\n'
    for i in range(0, len(cells), 8):
        out += ' '.join('%08x' % c for c in cells[i:i + 8]) + '\n'
    return out


def cells_of(text):
    """Cells from what was printed (the word field, then hexadecimal), or from decimal numbers parted by white space."""
    words = text.split()
    if words[:1] == ['field']:
        return [int(w, 16) for w in words[1:]]
    return [int(w) for w in words]
