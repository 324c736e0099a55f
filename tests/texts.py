"""Reads and writes the text of a program, in the plainest way: bytes from left to right, every fault noted.

A program is (names, cells, lines). A line is one of
    ('put', name, e)  ('read', place, name, e)  ('write', place, e, f)  ('barrier',)
    ('if', e, lines, lines)  ('while', e, lines)
with place 'cell' or 'field'; an expression e is a number, ('own', name), ('lane',), ('group',), ('lanes',) or (operator, e, f).
"""

KEYWORDS = b'own cells cell field barrier if else end while lane group lanes'.split()
LETTERS = b'abcdefghijklmnopqrstuvwxyz'
DIGITS = b'0123456789'
WORD = LETTERS + DIGITS
OPERATORS = b'+-*/%<='
WHOLE = 2 ** 32


class Refused(Exception):
    """The text or the field's bytes are refused with a number at a place."""

    def __init__(self, number, place):
        super().__init__(number, place)
        self.number, self.place = number, place

    def __str__(self):
        return 'refused %d at %d' % (self.number, self.place)


class NoTextGoesOnSo(Exception):
    """Reading can't go on behind the byte at this place: that is refusal 1."""

    def __init__(self, place):
        super().__init__(place)
        self.place = place


class Reader:
    def __init__(self, text):
        self.text = text
        self.at = 0
        self.names = []
        self.faults = []  # (place, number)

    # Bytes and words.

    def byte(self):
        """The next byte, or -1 at the end of the text."""
        return self.text[self.at] if self.at < len(self.text) else -1

    def expect(self, these):
        for b in these:
            if self.byte() != b:
                raise NoTextGoesOnSo(self.at)
            self.at += 1

    def run_of(self, kind):
        """The longest run of such bytes from here."""
        begin = self.at
        while self.at < len(self.text) and self.text[self.at] in kind:
            self.at += 1
        return self.text[begin:self.at]

    def word(self):
        """A name or a keyword: a letter, then letters and digits; a ninth byte is one too many."""
        begin = self.at
        if self.byte() < 0 or self.byte() not in LETTERS:
            raise NoTextGoesOnSo(begin)
        w = self.run_of(WORD)
        if len(w) > 8:
            raise NoTextGoesOnSo(begin + 8)
        return w

    def number(self, most):
        begin = self.at
        digits = self.run_of(DIGITS)
        if not digits:
            raise NoTextGoesOnSo(begin)
        digits = digits.lstrip(b'0') or b'0'
        if len(digits) > 10 or int(digits) > most:
            self.faults.append((begin, 3))
            return 0
        return int(digits)

    def used(self, w, place):
        """A name that is used must be there."""
        if w not in self.names:
            self.faults.append((place, 2))
        return w.decode()

    # Expressions. Brackets that are open are kept in a list, so that a thousand of them are no trouble.

    def operand(self):
        begin = self.at
        if self.byte() >= 0 and self.byte() in DIGITS:
            return self.number(WHOLE - 1)
        w = self.word()
        if w in (b'lane', b'group', b'lanes'):
            return (w.decode(),)
        if w in KEYWORDS:
            raise NoTextGoesOnSo(self.at)
        return ('own', self.used(w, begin))

    def operator(self):
        if self.byte() < 0 or self.byte() not in OPERATORS:
            raise NoTextGoesOnSo(self.at)
        self.at += 1
        return chr(self.text[self.at - 1])

    def expression(self):
        brackets = []
        while True:
            if self.byte() == ord('('):
                self.at += 1
                brackets.append(None)
                continue
            e = self.operand()
            while brackets:
                if brackets[-1] is None:
                    self.expect(b' ')
                    brackets[-1] = (self.operator(), e)
                    self.expect(b' ')
                    break
                self.expect(b')')
                operator, first = brackets.pop()
                e = (operator, first, e)
            else:
                return e

    # Lines.

    def own_line(self):
        self.expect(b' ')
        while True:
            begin = self.at
            w = self.word()
            if w in KEYWORDS:
                raise NoTextGoesOnSo(self.at)
            if w in self.names:
                self.faults.append((begin, 2))
            if len(self.names) >= 64:
                self.faults.append((begin, 3))
            self.names.append(w)
            if self.byte() != ord(' '):
                break
            self.at += 1
        self.expect(b'\n')

    def simple_line(self, w, begin):
        """A line that holds no others; w, its first word, has been read."""
        if w == b'barrier':
            return ('barrier',)
        if w in (b'cell', b'field'):
            self.expect(b' ')
            e = self.expression()
            self.expect(b' = ')
            return ('write', w.decode(), e, self.expression())
        if w in KEYWORDS:
            raise NoTextGoesOnSo(self.at)
        name = self.used(w, begin)
        self.expect(b' = ')
        begin = self.at
        if self.byte() >= 0 and self.byte() in LETTERS:
            w = self.word()
            if w in (b'cell', b'field'):
                self.expect(b' ')
                return ('read', w.decode(), name, self.expression())
            self.at = begin
        return ('put', name, self.expression())

    def body(self):
        """Lines up to the end of the text. What is open is a list of [kind, e, lines, other lines]."""
        lines = []
        blocks = []
        while self.at < len(self.text) or blocks:
            begin = self.at
            w = self.word()
            top = blocks[-1][0] if blocks else None
            if w in (b'if', b'while'):
                if len(blocks) >= 16:
                    self.faults.append((begin, 4))
                self.expect(b' ')
                blocks.append([w.decode(), self.expression(), lines, None])
                lines = []
            elif w == b'else' and top == 'if':
                blocks[-1][0] = 'else'
                blocks[-1][3] = lines
                lines = []
            elif w == b'end' and (top in ('if', 'else') or (top == 'while' and lines)):
                kind, e, outer, first = blocks.pop()
                if kind == 'while':
                    outer.append(('while', e, lines))
                elif kind == 'if':
                    outer.append(('if', e, lines, []))
                else:
                    outer.append(('if', e, first, lines))
                lines = outer
            else:
                lines.append(self.simple_line(w, begin))
            self.expect(b'\n')
        return lines

    def next_word_is(self, w):
        rest = self.text[self.at:self.at + len(w) + 1]
        return rest[:len(w)] == w and (len(rest) == len(w) or rest[-1] not in WORD)

    def whole(self):
        if self.next_word_is(b'own'):
            self.at += 3
            self.own_line()
        cells = 0
        if self.next_word_is(b'cells'):
            self.expect(b'cells ')
            cells = self.number(16384)
            self.expect(b'\n')
        return cells, self.body()

    def limits(self):
        """Too many lines, or too long: found by the bytes 10 alone."""
        begin = 0
        for k, line in enumerate(self.text.split(b'\n')):
            if k >= 1024 and begin < len(self.text):
                self.faults.append((begin, 4))
            if len(line) > 1024:
                self.faults.append((begin + 1024, 4))
            begin += len(line) + 1


def read(text):
    """The program that the text is, or Refused with the fault at the lowest place, the lower number of two there."""
    reader = Reader(text)
    reader.limits()
    program = None
    try:
        cells, lines = reader.whole()
        program = ([n.decode() for n in reader.names], cells, lines)
    except NoTextGoesOnSo as stop:
        reader.faults.append((stop.place, 1))
    if reader.faults:
        place, number = min(reader.faults)
        raise Refused(number, place)
    return program


def written(e):
    """An expression as text."""
    if isinstance(e, int):
        return str(e)
    if e[0] == 'own':
        return e[1]
    if len(e) == 1:
        return e[0]
    return '(%s %s %s)' % (written(e[1]), e[0], written(e[2]))


def lines_of(lines):
    for line in lines:
        if line[0] == 'put':
            yield '%s = %s' % (line[1], written(line[2]))
        elif line[0] == 'read':
            yield '%s = %s %s' % (line[2], line[1], written(line[3]))
        elif line[0] == 'write':
            yield '%s %s = %s' % (line[1], written(line[2]), written(line[3]))
        elif line[0] == 'barrier':
            yield 'barrier'
        elif line[0] == 'if':
            yield 'if ' + written(line[1])
            yield from lines_of(line[2])
            if line[3]:
                yield 'else'
                yield from lines_of(line[3])
            yield 'end'
        else:
            yield 'while ' + written(line[1])
            yield from lines_of(line[2])
            yield 'end'


def write(program):
    """The program's text, anew."""
    names, cells, lines = program
    head = []
    if names:
        head.append('own ' + ' '.join(names))
    if cells:
        head.append('cells %d' % cells)
    return ''.join(line + '\n' for line in head + list(lines_of(lines))).encode()
