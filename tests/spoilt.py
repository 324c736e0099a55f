"""Random texts with something spoilt, for the refusals."""

import programs
import texts

PIECES = [b' ', b'\n', b'(', b')', b' = ', b'=', b'own', b'cells', b'cell', b'field', b'barrier', b'if', b'else', b'end', b'while',
          b'lane', b'group', b'lanes', b'own ', b'cells ', b'cell ', b'if ', b'while ', b'else\n', b'end\n', b'barrier\n', b'a', b'zz', b'x1',
          b'abcdefgh', b'abcdefghi', b'0', b'00', b'7', b'4294967295', b'4294967296', b'99999999999', b'16384', b'16385', b' + ', b'+',
          b'\t', b'\r', b'A', b'\0', b'\xff', b'?', b'  ', b'\n\n', b'if 1\nend\n', b'if 1\nelse\nend\n', b'while 0\nend\n', b'a = 1\n', b'a = field 0\n']


def spoil(random, text):
    """One thing changed."""
    choice = random.randrange(10)
    at = random.randrange(len(text) + 1)
    if choice == 0:
        return text[:at]
    if choice == 1:
        return text[:at] + bytes([random.randrange(256)]) + text[at + 1:]
    if choice == 2:
        return text[:at] + text[at + random.randrange(1, 4):]
    if choice == 3:
        lines = text.split(b'\n')
        k, j = random.randrange(len(lines)), random.randrange(len(lines))
        lines[k], lines[j] = lines[j], lines[k]
        return b'\n'.join(lines)
    if choice == 4:
        lines = text.split(b'\n')
        del lines[random.randrange(len(lines))]
        return b'\n'.join(lines)
    return text[:at] + random.choice(PIECES) + text[at + (random.randrange(4) if choice > 7 else 0):]


def large(random, text):
    """Something near a limit."""
    choice = random.randrange(8)
    near = random.choice([-2, -1, 0, 0, 1, 2])
    if choice == 0:
        return b'own ' + b' '.join(b'n%d' % (k % 100) for k in range(64 + near)) + b'\nn1 = 1\n'
    if choice == 1:
        deep = 16 + near
        kinds = [random.choice([b'if', b'while']) for _ in range(deep)]
        return b'own a\n' + b''.join(w + b' a\n' for w in kinds) + b'barrier\n' + b'end\n' * deep
    if choice == 2:
        return b'own a\n' + b'a = a\n' * (1022 + near) + random.choice([b'', b'a = 1\n', b'?', b'\n'])
    if choice == 3:
        e = b'a'
        while len(e) < 1015:
            e = random.choice([b'(%s + 1)', b'(1 + %s)', b'(%s * lane)']) % e
        line = b'a = ' + e
        line = line[:4] + b'0' * max(0, 1024 + near - len(line)) + line[4:] if random.randrange(2) else line
        return b'own a\n' + line + b'\n'
    if choice == 4:
        return b'own a\na = ' + b'0' * (1020 + near) + random.choice([b'', b'\n', b'7\n', b'x\n'])
    if choice == 5:
        return b'own a\na = ' + b'(' * random.choice([5, 1019, 1020, 1021, 3000])
    if choice == 6:
        return b'cells ' + random.choice([b'0', b'00', b'16384', b'16385', b'016384', b'4294967296', b'']) + random.choice([b'\n', b'', b' \n', b'x\n'])
    return text + b'a = 1\n' * 1100


def random_text(random):
    program, _ = programs.random_program(random)
    text = texts.write(program)
    if random.randrange(3) == 0:
        text = text.replace(b' 1)', b' 01)', 1).replace(b'end\n', b'else\nend\n', random.randrange(2))
    if random.randrange(6) == 0:
        text = large(random, text)
    for _ in range(random.choice([0, 1, 1, 1, 2])):
        text = spoil(random, text)
    return text
