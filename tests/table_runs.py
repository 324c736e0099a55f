"""Programs and fields with what they are told, worked out by hand; the reference is held to every one of them.

A program's lines are parted by semicolons. What is told: a list of numbers is the field; a text is one printed line; a tuple of
texts is printed lines of which any one is right, since orders may show one race or another."""

LONG = 1000000

A = 'field (lane + (group * lanes)) = (lane + 10)'
B = 'own a; cells 4; cell lane = (lane * lane); barrier; a = cell ((lanes - 1) - lane); field lane = a'
C = 'own a; cells 4; cell lane = lane; a = cell ((lane + 1) % lanes); field lane = a'
D = 'own a b; while (a < lane); a = (a + 1); b = (b + a); end; field lane = b'
E = 'if lane; barrier; end'
F = 'field 5 = 1'
G = ('own a b; cells 4; cell lane = (lane + 1); barrier; if (lane < 2); a = cell (lane + 2); cell lane = (a + (lane + 1)); end; '
     'barrier; if (lane = 0); a = cell 0; b = cell 1; field 0 = (a + b); end')
H = 'field 0 = group'

RACE_C = ('race cell 0 group 0 lane 0 phase 0 wrote group 0 lane 1 phase 0 read', 'race cell 1 group 0 lane 0 phase 0 read group 0 lane 1 phase 0 wrote')
RACE_H = 'race field 0 group 0 lane 0 phase 0 wrote group 1 lane 0 phase 0 wrote'

# name, groups, lanes, field at the start, program, told, steps of lanes
LETTERS = [
    ('A', 2, 2, [0] * 4, A, [10, 11, 10, 11], 4),
    ('B', 1, 4, [0] * 4, B, [9, 4, 1, 0], 12),
    ('C', 1, 2, [0] * 2, C, RACE_C, 6),
    ('D', 1, 4, [0] * 4, D, [0, 1, 3, 6], 26),
    ('E', 1, 2, [0], E, 'stuck group 0', 2),
    ('F', 1, 1, [0], F, 'wrong group 0 lane 0', 1),
    ('G', 1, 4, [0], G, [10], 19),
    ('H', 2, 1, [0], H, RACE_H, 2),
]


def pair(place, one, other):
    """A race as printed; a touch is (group, lane, phase, wrote)."""
    words = ['group %d lane %d phase %d %s' % t for t in (one, other)]
    return 'race %s %s' % (place, ' '.join(words))


WROTE, READ = 'wrote', 'read'
REVERSE = 'own a; cells %d; cell lane = (lane * 3); barrier; a = cell ((lanes - 1) - lane); field lane = a'
EARLY = ('own a b c; while (a < (lane %% %d)); a = (a + 1); if (a = 3); a = 100; end; b = (b + 1); end; c = (b * 10); field lane = (c + (a = 100))')
LATE_ROW = 'own a b; cells 64; if (lane < 32); else; while (a < 9); a = (a + 1); end; end; cell lane = (a + lane); barrier; b = cell ((lane + 32) % lanes); field lane = b'
EITHER = 'if (lane % 2); barrier; end; if ((lane % 2) = 0); barrier; end; field lane = 1'


def early(lane, turns):
    """By hand: a lane turns lane % turns times, but leaves at its third turn."""
    many = lane % turns
    return [many * 10, 31][many >= 3]


# Each way in which fields come apart, with 33 and 64 lanes where rows matter.
APART = [
    # A race that is looked for within a row only.
    ('rows-33', 1, 33, [0], 'own a; cells 1; if (lane = 0); cell 0 = 1; end; if (lane = 32); a = cell 0; end', pair('cell 0', (0, 0, 0, WROTE), (0, 32, 0, READ))),
    ('rows-64', 1, 64, [0], 'own a; cells 1; if (lane = 31); a = cell 0; end; if (lane = 63); cell 0 = 1; end', pair('cell 0', (0, 31, 0, READ), (0, 63, 0, WROTE))),
    ('rows-writes', 1, 64, [0] * 64, 'field (lane % 63) = lane', pair('field 0', (0, 0, 0, WROTE), (0, 63, 0, WROTE))),
    ('rows-field', 1, 33, [0] * 33, 'own a; a = field ((lane + 1) % lanes); if (lane = 32); field 5 = a; end', pair('field 5', (0, 4, 0, READ), (0, 32, 0, WROTE))),
    # Barriers counted by rows and not by lanes.
    ('reverse-33', 1, 33, [0] * 33, REVERSE % 33, [3 * (32 - k) for k in range(33)]),
    ('reverse-64', 1, 64, [0] * 64, REVERSE % 64, [3 * (63 - k) for k in range(64)]),
    ('late-row-64', 1, 64, [0] * 64, LATE_ROW, [9 + k + 32 for k in range(32)] + [k for k in range(32)]),
    ('one-missing-33', 1, 33, [0], 'if (lane < 32); barrier; end', 'stuck group 0'),
    ('one-missing-64', 1, 64, [0], 'if (lane = 63); else; barrier; end', 'stuck group 0'),
    ('two-rows-two-barriers', 1, 64, [0] * 64, 'if (lane < 32); barrier; else; barrier; end; field lane = lane', list(range(64))),
    # A join at the wrong place, behind a while that some lanes left early.
    ('left-early-4', 1, 4, [0] * 4, EARLY % 6, [early(k, 6) for k in range(4)]),
    ('left-early-33', 1, 33, [0] * 33, EARLY % 6, [early(k, 6) for k in range(33)]),
    ('left-early-64', 1, 64, [0] * 64, EARLY % 7, [early(k, 7) for k in range(64)]),
    ('left-in-an-if', 1, 33, [0] * 33, 'own a; if (lane % 3); while (a < lane); a = (a + (lane % 3)); end; a = (a + 1000); end; field lane = a',
     [0 if k % 3 == 0 else (k if k % 3 == 1 else k + k % 2) + 1000 for k in range(33)]),
    ('while-in-a-while', 1, 5, [0] * 5, 'own a b c; while (a < lane); a = (a + 1); b = 0; while (b < a); b = (b + 1); c = (c + 1); end; end; field lane = c', [0, 1, 3, 6, 10]),
    # Two writes by lanes of different groups, taken for none, as their phases differ.
    ('phases-differ', 2, 1, [0], 'if group; barrier; end; field 0 = group', pair('field 0', (0, 0, 0, WROTE), (1, 0, 1, WROTE))),
    ('phases-differ-33', 2, 33, [0] * 40, 'barrier; if group; barrier; barrier; end; if (lane = 32); field 39 = group; end', pair('field 39', (0, 32, 1, WROTE), (1, 32, 3, WROTE))),
    # The last reader kept, where the first one raced.
    ('first-reader', 1, 2, [0], 'own a; cells 1; a = cell 0; if lane; cell 0 = 1; end', pair('cell 0', (0, 0, 0, READ), (0, 1, 0, WROTE))),
    ('first-reader-field', 2, 1, [7], 'own a; a = field 0; if group; field 0 = a; end', pair('field 0', (0, 0, 0, READ), (1, 0, 0, WROTE))),
    ('reader-outlives-its-phase', 2, 1, [7, 8], 'own a; if group; field 0 = 1; else; a = field 0; barrier; a = field 1; barrier; a = field 1; end', pair('field 0', (0, 0, 0, READ), (1, 0, 0, WROTE))),
    ('two-readers-of-a-group', 2, 2, [7], 'own a; if (group = 0); a = field 0; else; if lane; a = field 0; a = field 0; field 0 = 1; end; end',
     (pair('field 0', (0, 0, 0, READ), (1, 1, 0, WROTE)), pair('field 0', (0, 1, 0, READ), (1, 1, 0, WROTE)))),
    ('own-reads-then-write', 1, 2, [7, 8], 'own a; a = field lane; a = field lane; field lane = (a + 1); a = field lane; field lane = (a + 1)', [9, 10]),
    ('read-write-barrier-write', 1, 2, [0, 0], 'own a; cells 1; if (lane = 0); a = cell 0; cell 0 = 5; end; barrier; if lane; a = cell 0; cell 0 = (a + 1); end; barrier; if (lane = 0); a = cell 0; end; field lane = a', [6, 5]),
    # A group that has ended, taken for one that waits.
    ('one-group-ends', 2, 2, [0] * 4, 'if group; barrier; end; field (lane + (group * lanes)) = (group + 1)', [1, 1, 2, 2]),
    ('one-group-ends-33', 2, 33, [0] * 66, 'if group; barrier; barrier; end; field (lane + (group * lanes)) = (group + 1)', [1] * 33 + [2] * 33),
    ('other-group-stuck', 3, 2, [0], 'if (group = 1); if lane; barrier; end; end; if (group = 2); barrier; end', 'stuck group 1'),
    ('last-group-stuck', 3, 33, [0], 'if (group < 2); barrier; else; if (lane = 7); barrier; end; end', 'stuck group 2'),
    # A join that holds lanes while the others of its row wait at a barrier.
    ('not-stuck', 1, 2, [0], 'if lane; barrier; end; if (lane = 0); barrier; end', [0]),
    ('not-stuck-33', 1, 33, [0] * 33, EITHER, [1] * 33),
    ('not-stuck-64', 1, 64, [0] * 64, EITHER, [1] * 64),
    ('not-stuck-in-a-while', 1, 4, [0] * 4, 'own a; while (a < 3); if ((lane + a) % 2); barrier; end; if (((lane + a) % 2) = 0); barrier; end; a = (a + 1); end; field lane = a', [3] * 4),
    ('barrier-in-a-while', 1, 3, [0] * 3, 'own a b; cells 3; while (a < 3); cell lane = (lane + a); barrier; b = cell ((lane + 1) % lanes); barrier; a = (a + 1); end; field lane = b', [3, 4, 2]),
    ('left-a-while-with-barrier', 1, 2, [0], 'own a; while (a < (lane + 1)); barrier; a = (a + 1); end', 'stuck group 0'),
    # Races between groups missed, as groups are taken one after the other.
    ('groups-write-read', 2, 1, [0], 'own a; if group; a = field 0; else; barrier; barrier; field 0 = 1; end', pair('field 0', (0, 0, 2, WROTE), (1, 0, 0, READ))),
    ('groups-33', 2, 33, [0] * 33, 'if (lane = (group * 32)); field 9 = lane; end', pair('field 9', (0, 0, 0, WROTE), (1, 32, 0, WROTE))),
    ('groups-far', 1024, 1, [0] * 1023, 'field (group % 1023) = 1', pair('field 0', (0, 0, 0, WROTE), (1023, 0, 0, WROTE))),
    ('groups-own-cells', 2, 1, [0, 0], 'own a; cells 1; cell 0 = (group + 5); a = cell 0; field group = a', [5, 6]),
    ('all-read', 2, 33, [7] + [0] * 66, 'own a; a = field 0; a = field 0; field ((lane + (group * lanes)) + 1) = a', [7] * 67),
]

OPERATORS = ['(4294967295 + 1)', '(0 - 1)', '(65536 * 65536)', '(4294967295 * 4294967295)', '(7 / 0)', '(7 % 0)', '(4294967295 / 2)', '(4294967295 % 10)',
             '(3 < 3)', '(3 < 4)', '(4 < 3)', '(3 = 3)', '(3 = 4)', '(1 - 4294967295)', '(0 / 5)', '(5 - (2 - 4))']
VALUES = [0, 2 ** 32 - 1, 0, 1, 0, 0, 2 ** 31 - 1, 5, 0, 1, 0, 1, 0, 2, 0, 7]

# name, groups, lanes, steps granted, field, program, told
OTHERS = [
    ('operators', 1, 1, LONG, [9] * 16, '; '.join('field %d = %s' % (k, e) for k, e in enumerate(OPERATORS)), VALUES),
    ('words', 3, 2, LONG, [0] * 18, '; '.join('field (((lane + (group * lanes)) * 3) + %d) = %s' % (k, w) for k, w in enumerate(('lane', 'group', 'lanes'))),
     [x for g in range(3) for k in range(2) for x in (k, g, 2)]),
    ('nothing', 1, 1, 0, [], '', []),
    ('nothing-8', 1, 1, 0, list(range(8)), '', list(range(8))),
    ('nothing-9', 1024, 4, 0, list(range(100, 109)), '', list(range(100, 109))),
    ('nothing-16', 2, 3, 5, [2 ** 32 - 1] * 16, '', [2 ** 32 - 1] * 16),
    ('only-barriers', 2, 33, 0, [1], 'barrier; barrier; barrier', [1]),
    ('no-steps-granted', 1, 1, 0, [1], 'field 0 = 1', 'too long'),
    ('own-starts-0', 1, 2, LONG, [5, 5], 'own a; field lane = a', [0, 0]),
    ('cells-start-0', 2, 1, LONG, [5, 5], 'own a; cells 3; a = cell 2; field group = a', [0, 0]),
    ('field-is-read', 1, 3, LONG, [5, 6, 7], 'own a; a = field lane; field lane = (a * a)', [25, 36, 49]),
    ('first-side', 1, 2, LONG, [0, 0], 'if lane; field lane = 1; else; field lane = 2; end', [2, 1]),
    ('large-is-not-0', 1, 1, LONG, [0], 'if 4294967295; field 0 = 1; end', [1]),
    ('empty-if', 1, 1, 2, [0], 'if 1; end; if 0; else; end', [0]),
    ('empty-if-steps', 1, 1, 1, [0], 'if 1; end; if 0; else; end', 'too long'),
    ('for-ever', 1, 1, LONG, [0], 'own a; while 1; a = (a + 1); end', 'too long'),
    ('for-ever-with-barriers', 1, 1, 1000, [0], 'while 1; barrier; end', 'too long'),
    ('for-ever-in-the-second-group', 2, 1, 1000, [0], 'own a; while group; a = (a + 1); end', 'too long'),
    ('never', 1, 1, 1, [3], 'own a; while 0; a = (a + 1); end', [3]),
    ('edge-of-the-field', 1, 2, LONG, [0], 'field lane = 1', 'wrong group 0 lane 1'),
    ('edge-63-of-64', 1, 64, LONG, [0] * 63, 'field lane = 1', 'wrong group 0 lane 63'),
    ('edge-32-of-33', 2, 33, LONG, [0] * 65, 'field (lane + (group * lanes)) = 1', 'wrong group 1 lane 32'),
    ('edge-of-the-cells', 1, 2, LONG, [0, 0], 'own a; cells 2; a = cell (lane * 2); field lane = a', 'wrong group 0 lane 1'),
    ('below-0', 1, 2, LONG, [0, 0], 'own a; cells 2; if (lane = 0); a = cell (lane - 1); end', 'wrong group 0 lane 0'),
    ('no-cells', 1, 1, LONG, [0], 'cell 0 = 1', 'wrong group 0 lane 0'),
    ('no-field', 1, 1, LONG, [], 'own a; a = field 0', 'wrong group 0 lane 0'),
    ('last-cell', 1, 1, LONG, [0], 'own a; cells 16384; cell 16383 = 4; a = cell 16383; field 0 = a', [4]),
    ('behind-the-last-cell', 1, 1, LONG, [0], 'own a; cells 16384; a = cell 16384', 'wrong group 0 lane 0'),
    ('wrong-in-group-2', 3, 2, LONG, [0] * 5, 'field (lane + (group * lanes)) = 1', 'wrong group 2 lane 1'),
    ('alone-with-barriers', 1, 1, LONG, [0], 'own a; cells 1; cell 0 = 1; barrier; a = cell 0; barrier; field 0 = (a + 1)', [2]),
    ('stuck-behind-work', 1, 3, LONG, [0] * 3, 'field lane = 1; if (lane = 1); else; barrier; end; if (lane = 2); barrier; end', 'stuck group 0'),
    ('write-write-one-lane', 1, 1, LONG, [0], 'field 0 = 1; field 0 = 2', [2]),
    ('value-before-place', 1, 1, LONG, [3, 0, 0, 9], 'own a; a = field 0; field a = (a + 1); a = field a; field (a - 4) = a', [4, 0, 0, 4]),
    ('read-into-its-index', 1, 1, LONG, [2, 0, 1], 'own a; a = field a; a = field a; a = field a; field 1 = a', [2, 0, 1]),
    ('64-own', 1, 1, LONG, [0], 'own ' + ' '.join('n%d' % k for k in range(64)) + '; n63 = 5; n0 = (n63 + n62); field 0 = n0', [5]),
    ('16-deep', 1, 2, LONG, [0, 0], '; '.join(['if lane'] * 16 + ['field lane = 1'] + ['end'] * 16), [0, 1]),
    ('16-whiles', 1, 1, LONG, [0], 'own a; ' + '; '.join(['while (a < 1)'] * 16 + ['a = 1'] + ['end'] * 16) + '; field 0 = a', [1]),
    ('same-write', 1, 2, LONG, [0], 'field 0 = 1', pair('field 0', (0, 0, 0, WROTE), (0, 1, 0, WROTE))),
    ('missed-barrier', 1, 2, LONG, [0, 0], 'own a; cells 2; cell lane = 1; if (lane = 0); a = cell 1; end; barrier; field lane = a', pair('cell 1', (0, 0, 0, READ), (0, 1, 0, WROTE))),
    ('group-cells-race-in-group-1', 2, 2, LONG, [0], 'cells 1; if (group * lane); cell 0 = 1; end; if (group * (lane = 0)); cell 0 = 1; end', pair('cell 0', (1, 0, 0, WROTE), (1, 1, 0, WROTE))),
]

# Exactly enough steps give the field, one fewer is too long.
BUDGETS = [(name + '-enough', groups, lanes, steps, field, program, told) for name, groups, lanes, field, program, told, steps in LETTERS if name in 'ABDG']
BUDGETS += [(name + '-one-fewer', groups, lanes, steps - 1, field, program, 'too long') for name, groups, lanes, field, program, told, steps in LETTERS if name in 'ABDG']


def all_runs():
    """(name, groups, lanes, steps, field, program, told) for `run`."""
    out = [(name, groups, lanes, LONG, field, program, told) for name, groups, lanes, field, program, told, steps in LETTERS]
    out += BUDGETS
    out += [(name, groups, lanes, LONG, field, program, told) for name, groups, lanes, field, program, told in APART]
    return out + OTHERS


# Turns worked out by hand: name, groups, lanes, steps, field, program, turns, told.
SECOND_READER = 'own a; a = field 0; if (group = 0); barrier; a = field 0; barrier; a = field 0; field 0 = 1; end'
ORDERS = [
    ('no-turns', 2, 2, 4, [0] * 4, A, '', [10, 11, 10, 11]),
    ('turned-round', 2, 2, 4, [0] * 4, A, 'of 1 1; of 1 0; of 0 1; of 0 0', [10, 11, 10, 11]),
    ('turns-that-cannot-be-done', 2, 2, 4, [0] * 4, A, 'of 2 0; of 0 2; release 0; release 7; of 0 0; of 0 0; of 0 0; release 0; of 1023 1023', [10, 11, 10, 11]),
    ('no-step-for-what-cannot-be-done', 2, 2, 3, [0] * 4, A, 'of 0 0; of 0 0; of 0 1; of 1 0', 'too long'),
    ('lower-group-first', 2, 1, LONG, [0], H, 'of 1 0; of 0 0', RACE_H),
    ('lower-lane-first', 1, 2, LONG, [0], 'field 0 = lane', 'of 0 1; of 0 0', pair('field 0', (0, 0, 0, WROTE), (0, 1, 0, WROTE))),
    ('release-too-early', 1, 4, 12, [0] * 4, B, 'of 0 0; of 0 1; of 0 2; release 0; of 0 3; release 0; release 0; of 0 3; of 0 3', [9, 4, 1, 0]),
    ('wrong-first', 1, 2, LONG, [0], 'field (lane + 1) = 1', 'of 0 1', 'wrong group 0 lane 1'),
    ('stuck-early', 2, 2, LONG, [0] * 4, 'if (group = 0); if lane; barrier; end; end', 'of 0 1; of 0 1; of 0 0; of 0 0; release 0', 'stuck group 0'),
    ('C-writes-first', 1, 2, LONG, [0, 0], C, 'of 0 0; of 0 1; of 0 1', RACE_C[0]),
    ('C-reads-first', 1, 2, LONG, [0, 0], C, 'of 0 0; of 0 1; of 0 0', RACE_C[1]),
    ('reader-of-another-group', 2, 1, LONG, [7], SECOND_READER, 'of 1 0; of 0 0; of 0 0; release 0; of 0 0; release 0; of 0 0; of 0 0', pair('field 0', (0, 0, 2, WROTE), (1, 0, 0, READ))),
    ('reader-between-two-of-a-group', 2, 3, LONG, [7], 'own a; if (group * lane); else; a = field 0; end; if (group = 0); barrier; if (lane = 2); field 0 = 1; end; end',
     'of 0 0; of 0 0; of 1 0; of 1 0; of 0 1; of 0 1; of 0 2; of 0 2; of 0 0; of 0 1; of 0 2; release 0', pair('field 0', (0, 2, 1, WROTE), (1, 0, 0, READ))),
    ('not-stuck-turned', 1, 2, LONG, [0], 'if lane; barrier; end; if (lane = 0); barrier; end', 'of 0 1; of 0 0; of 0 0; release 0; of 0 1', [0]),
    ('too-long-in-the-turns', 1, 2, 3, [0, 0], 'field lane = 1; field lane = 2', 'of 0 1; of 0 0; of 0 1; of 0 0', 'too long'),
]
