"""What is told of a program, in the order one lane after the other or in a given one; and whether an answer is right."""

import fields
import grid as grids
import rows


def taken(grid, turns):
    """The turns of an order: given ones and then one lane after the other, or rows in lockstep."""
    return rows.order(grid) if turns == 'rows' else grids.order(grid, turns)


def tell(program, field, turns=()):
    """What is told first in this order, as printed, and the grid where it stopped."""
    grid = grids.Grid(program, field)
    for turn in taken(grid, turns):
        if turn[0] == 'of' and grid.steps == field.steps:
            return 'too long\n', grid
        grid.do(turn)
        if grid.races:
            return grids.race_line(*grid.races[0]), grid
        if turn[0] == 'of' and grid.groups[turn[1]][turn[2]].wrong:
            return 'wrong group %d lane %d\n' % (turn[1], turn[2]), grid
    if grid.stuck():
        return 'stuck group %d\n' % grid.stuck()[0], grid
    return fields.printed(grid.field), grid


def kind(told):
    return told.split()[0] if told.split() else ''


def to_the_end(program, field, turns, most):
    """The grid where nothing can go on, races and wrong lanes or not, or after so many steps; and whether it came there."""
    grid = grids.Grid(program, field)
    for turn in taken(grid, turns):
        if turn[0] == 'of' and grid.steps == most:
            return grid, False
        grid.do(turn)
    return grid, True


def race_lines(grid):
    return {grids.race_line(a, b) for a, b in grid.races}


def same_order(program, field, turns, answer):
    """Is the answer right if the machine took this very order? None if it is, else why not."""
    told, grid = tell(program, field, turns)
    if answer == told:
        return None
    if kind(answer) == 'race' and answer in race_lines(grid):
        return None
    if answer in ['stuck group %d\n' % g for g in grid.stuck()]:
        return None
    return 'in the same order the reference tells: ' + told


def confirmed(program, field, answer, orders, most=20000):
    """Is the told race one of the races of these orders?"""
    return any(answer in race_lines(to_the_end(program, field, turns, most)[0]) for turns in orders)


def some_order(program, field, answer, most=200000):
    """Is the answer right if the machine took some order of its own? None if it is, else why not.

    Without a race every order comes to the same end, so only the reference's own end is right. With one,
    other orders may have other touches, and only a field is ruled out."""
    grid, ended = to_the_end(program, field, (), max(most, 0))
    if grid.races:
        return 'a field is told, and there is a race: ' + grids.race_line(*grid.races[0]) if kind(answer) == 'field' else None
    if not ended:
        if kind(answer) == 'field' and field.steps < most:
            return 'a field is told, and there are more steps than were granted'
        return None
    right = ['wrong group %d lane %d\n' % w for w in grid.wrong()] + ['stuck group %d\n' % g for g in grid.stuck()]
    if grid.steps > field.steps:
        right.append('too long\n')
    if not right:
        right.append(fields.printed(grid.field))
    return None if answer in right else 'right is one of: ' + ' '.join(right)
