"""Texts and what becomes of them, worked out by hand.

In a text that is refused the mark ^ stands before the byte at which it is; it is no byte of the language and is taken out.
In one that is taken, what it is written anew as stands beside it, None where nothing changes."""

# Grammar: the first byte at which no text goes on so.
ONE = [
    # own and cells
    'own^\n', 'own ^\n', 'own^', 'own a^', 'own a ^\n', 'own ^ a\n', 'own a^\t b\n', 'own a^\r\n', 'own lane^\n', 'own lane^ b\n', 'own a cells^\n',
    'own a b own^\n', 'own ^1a\n', 'own ^A\n', 'own a^,b\n', 'own abcdefgh^i\n', 'own a\nown^ b\n', 'cells 4\nown^ a\n', 'cells 4\ncells^ 4\n',
    'own a\na = 1\ncells^ 4\n', 'own a\na = 1\nown^ b\n', 'cells^\n', 'cells ^\n', 'cells ^-1\n', 'cells ^x\n', 'cells 4^ \n', 'cells 4^a\n', 'cells^', 'cells 4^',
    'cells ^ 4\n', 'cells ^(1 + 1)\n',
    # the beginning of a line
    '^\n', '^ ', '^ barrier\n', '^\tbarrier\n', '^1 = 2\n', '^(1 + 2)\n', '^?', '^\0', '^\x7f', '^A = 1\n', '^= 1\n', 'own a\n^\na = 1\n', 'own a\na = 1\n^\n',
    'lane^ = 1\n', 'lane^', 'group^\n', 'lanes^ = 1\n', 'abcdefgh^i = 1\n', 'abcdefgh^ijklmnop',
    # a = e
    'own a\na^', 'own a\na^\n', 'own a\na^=1\n', 'own a\na ^', 'own a\na =^1\n', 'own a\na = ^', 'own a\na = ^\n', 'own a\na = ^ 1\n', 'own a\na ^+ 1\n',
    'own a\na ^ = 1\n', 'own a\na = 1^', 'own a\na = 1^ \n', 'own a\na = 1^\r\n', 'own a\na = 1^ + 2\n', 'own a\na = ^-1\n', 'own a\na = 12^x\n', 'own a\na = 1^.5\n',
    'own a\na = own^\n', 'own a\na = end^\n', 'own a\na = barrier^', 'own a\na = abcdefgh^i\n', 'own a\na = a^,\n', 'own a\na = lane^(\n', 'own a\na = ^A\n',
    # brackets
    'own a\na = (1 + 2^\n', 'own a\na = (1^+ 2)\n', 'own a\na = (1 ^& 2)\n', 'own a\na = (1 +^2)\n', 'own a\na = (^ 1 + 2)\n', 'own a\na = (1 + 2)^)\n',
    'own a\na = (1^)\n', 'own a\na = ^)\n', 'own a\na = (^)\n', 'own a\na = (1 + 2^ )\n', 'own a\na = (1 + (2 * 3)^\n', 'own a\na = ((1 + 2)^)\n',
    'own a\na = (1 ^> 2)\n', 'own a\na = (1 =^= 2)\n', 'own a\na = (1 + ^\n', 'own a\na = (^', 'own a\na = (cell^ 1)\n', 'own a\na = (1 + field^ 1)\n', 'own a\na = ^[1]\n',
    # cells and the field
    'own a\na = cell^\n', 'own a\na = cell^', 'own a\na = cell ^\n', 'own a\na = cell 1^ = 2\n', 'own a\na = field 1^ + 1\n', 'own a\na = field^(1)\n',
    'own a\na = cell ^ 1\n', 'cell^\n', 'cell 0^\n', 'cell 0^', 'cell 0 ^+ 1\n', 'cell 0 = ^\n', 'cell 0 = cell^ 1\n', 'field 0 =^1\n', 'field^', 'field ^= 1\n',
    'field 0 = 1^ \n', 'field 0 = field^ 1\n', 'cell ^= 1\n',
    # barrier, if, else, end, while
    'barrier^', 'barrier^ \n', 'barrier^ 1\n', 'if^\n', 'if^', 'if ^\n', 'if 1^ \n', 'if 1\n^', 'if 1\nend^', 'if 1\nend^ \n', 'if 1\nelse^', 'if 1\nelse^ \n',
    'if 1\nelse\n^', 'if 1\nelse\nelse^\n', 'else^\n', 'end^\n', 'end^', 'end^ \n', 'while 1\nend^\n', 'while 1\nelse^\n', 'while 1\nbarrier\nelse^\n', 'while^\n',
    'while ^\n', 'while 1\n^', 'while 1\nbarrier\n^', 'if 1\nend\nend^\n', 'if 1\nwhile 1\nbarrier\nelse^\nend\nend\n', 'while 1\nif 1\nend\nelse^\nend\n',
    'if (lane < 2^\n', 'if^(lane < 2)\n', 'if 1\nend\nelse^\n', 'while 1\nif 1\nelse\nend\nend\nend^\n', 'if cell^ 0\nend\n',
]

# A name that isn't there, or is there twice.
TWO = [
    '^a = 1\n', '^hello\n', '^hello', '^zz?\n', '^zz', '^whil', '^i', '^barriers\n', '^ownx a\n', '^owns', '^lanes2 = 1\n', '^x\0', 'own a\na = ^b\n', 'own a\na = (a + ^zz?\n',
    'own a\na = (a + ^zz', 'own a ^a\n', 'own a b ^a c\n', 'own a ^a', 'own a ^a a\n', 'own a b ^b a\n', 'own a\na = ^la', 'own a\na = ^lanex\n', 'own a\na = ^celle 1\n',
    'own a\na = cell ^b\n', 'own a\na = field (1 + ^b)\n', 'cell ^b = 1\n', 'field 0 = ^b\n', 'if ^b\nend\n', 'while ^b\nbarrier\nend\n', 'own a\na = ^ab\n', 'own ab\n^a = 1\n',
    'own a\na = (^x + y)\n', 'own a\n^b = (c + ?\n', 'own a\n^b = 99999999999\n', '^own1 a\n', 'own a\na = 1\n^b = 1\na = ?\n', 'own a\n^elsea', 'if 1\n^ends\n',
    'own a\na = (1 + ^b?', 'own abcdefgh\nabcdefgh = ^abcdefgi\n', 'own a ^a ?\n', '^a = (1 +2)\n',
]

# A number of 2^32 or more, too many own numbers or cells.
THREE = [
    'own a\na = ^4294967296\n', 'own a\na = ^99999999999999999999\n', 'own a\na = ^00004294967296\n', 'own a\na = ^4294967296x\n', 'own a\na = ^4294967296', 'own a\na = (1 + ^5000000000)\n',
    'own a\na = (^4294967296 + zz)\n', 'field ^4294967296 = b\n', 'field 0 = ^18446744073709551616\n', 'if ^4294967296\nend\n', 'while ^4294967296\n', 'cells ^16385\n',
    'cells ^16385', 'cells ^4294967296\n', 'cells ^99999x\n', 'cells ^0016385\n', 'cells ^340282366920938463463374607431768211456\n', 'own a\na = cell ^9999999999\n',
]

NAMES = [c for c in 'abcdefghijklmnopqrstuvwxyz'] + ['a%d' % k for k in range(38)]
NAMES_64 = 'own ' + ' '.join(NAMES)
DEEP_16 = ''.join(('if 1\n', 'while lane\n')[k % 2] for k in range(16))
LONG_1020 = '0' * 1020

MANY = [
    (3, NAMES_64 + ' ^b0\n'), (3, NAMES_64 + ' ^b0 b1\n'), (3, NAMES_64 + ' ^b0'), (2, NAMES_64 + ' ^a\n'), (2, NAMES_64[:-3] + '^a b0 b1\n'), (1, NAMES_64 + ' ^?\n'), (1, NAMES_64 + '^?'),
    (3, NAMES_64 + ' ^b0?'), (3, NAMES_64 + '\na = ^4294967296\n'),
    # too long
    (4, 'own a\na = ' + LONG_1020 + '^0\n'), (4, 'own a\na = ' + LONG_1020 + '^0'), (4, 'own a\na = ' + LONG_1020 + '^00000\n'), (1, 'own a\na = ' + LONG_1020 + '^x\n'), (1, 'own a\na = ' + LONG_1020 + '^ \n'),
    (4, 'own a\na = ' + '(' * 1020 + '^' + '(' * 2000), (1, 'own a\na = ' + '(' * 1020 + '^'), (1, 'own a\na = ' + '(' * 1020 + '^\n'),
    (2, 'own a\na = (' + LONG_1020[:1015] + ' + ^bcd)\n'), (2, 'own a\na = (' + LONG_1020[:1014] + ' + ^bcd)\n'), (4, 'own a\na = (' + LONG_1020[:1015] + ' + 7^)\n'),
    (4, 'own a\na = (' + LONG_1020[:1014] + ' + 77^)\n'), (3, 'own a\na = ^' + LONG_1020 + '4294967296\n'), (1, 'abcdefgh^' + 'i' * 3000),
    (1, 'own a\na = 1' + '^' + ' ' * 3000), (4, 'cells ' + '0' * 1018 + '^0\n'), (3, 'cells ^' + '0' * 1018 + '16385\n'), (2, 'own a' + ' ^a' + ' a' * 600 + '\n'),
    # too many lines
    (4, 'barrier\n' * 1024 + '^barrier\n'), (1, 'barrier\n' * 1024 + '^?'), (1, 'barrier\n' * 1024 + '^\n'), (2, 'barrier\n' * 1024 + '^b = 1\n'), (4, 'barrier\n' * 1024 + '^end\n'),
    (4, 'barrier\n' * 1024 + '^if ?'), (4, 'barrier\n' * 1024 + '^abcdefghi\n'), (4, 'if 1\n' + 'barrier\n' * 1023 + '^end\n'), (1, 'if 1\n' + 'barrier\n' * 1023 + '^'),
    (4, 'own a\n' + 'a = 1\n' * 1023 + '^a = 1\n' + 'a = 1\n' * 500), (2, 'own a\n' + 'a = 1\n' * 1022 + 'a = ^b\na = 1\n'),
    # too deep
    (4, DEEP_16 + '^if 1\nend\n'), (4, DEEP_16 + '^while 1\n'), (4, DEEP_16 + '^if'), (4, DEEP_16 + '^if?\n'), (4, DEEP_16 + '^while'), (4, DEEP_16 + '^if zz\n'), (2, DEEP_16 + '^ifx = 1\n'), (2, DEEP_16 + '^i'),
    (1, DEEP_16 + 'end^\n'), (1, DEEP_16 + '^'), (4, 'if 1\n' * 16 + 'end\nif 1\n' + '^if 1\nend\n'), (4, 'if 1\nelse\n' * 16 + '^if 1\n'), (1, 'if 1\n' * 15 + 'if 1^ \nif 1\n'), (2, 'if 1\n' * 15 + 'if ^b\nif 1\n'),
    (4, 'while 1\n' * 16 + '^while 1\nbarrier\n' + 'end\n' * 17),
]

# Bytes above 127, which Python's text form does not hold as one byte.
HIGH = [(1, b'own a\na = ^\xff\n'), (1, b'^\x80'), (1, b'own a^\xc3\xa4\n'), (1, b'^\xef\xbb\xbfbarrier\n')]

TAKEN = [
    ('', None), ('barrier\n', None), ('own a\n', None), ('cells 4\n', None), ('cells 0\n', ''), ('cells 00\n', ''), ('cells 16384\n', None), ('cells 016384\n', 'cells 16384\n'), ('own a\ncells 0\na = 1\n', 'own a\na = 1\n'),
    ('own abcdefgh\nabcdefgh = abcdefgh\n', None), ('own owns cells2 cella fields barriers iff else1 ends whiles lane0 groups lanesx\nowns = (lane0 + iff)\n', None),
    ('own a\na = 4294967295\n', None), ('own a\na = 0000000000000000000000004294967295\n', 'own a\na = 4294967295\n'), ('own a\na = 000\n', 'own a\na = 0\n'), ('own a\na = 007\n', 'own a\na = 7\n'),
    ('own a\na = ((((a + 1) - 2) * 3) / (4 % (5 < (6 = lane))))\n', None), ('own a\na = cell group\na = field lanes\ncell a = (a + 01)\nfield (00 + a) = a\n', 'own a\na = cell group\na = field lanes\ncell a = (a + 1)\nfield (0 + a) = a\n'),
    ('if 1\nend\n', None), ('if 1\nelse\nend\n', 'if 1\nend\n'), ('if 1\nelse\nbarrier\nend\n', None), ('if 1\nbarrier\nelse\nend\n', 'if 1\nbarrier\nend\n'), ('if lane\nbarrier\nelse\nbarrier\nend\n', None),
    ('while 1\nbarrier\nend\n', None), ('while 1\nif 0\nelse\nend\nend\n', 'while 1\nif 0\nend\nend\n'), ('if 1\nif 2\nelse\nif 3\nend\nend\nelse\nwhile 4\nbarrier\nend\nend\n', None),
    (NAMES_64 + '\n', None), ('own a\na = ' + LONG_1020 + '\n', 'own a\na = 0\n'), ('own a\na = ' + LONG_1020[:1019] + '5\n', 'own a\na = 5\n'), ('barrier\n' * 1024, None), ('own a\n' + 'a = 1\n' * 1023, None),
    (DEEP_16 + 'barrier\n' + 'end\n' * 16, None), ('if 1\nend\n' * 100, None), ('if 1\n' * 16 + 'end\n' * 16, None), ('field (lane + (group * lanes)) = (lane + 10)\n', None),
    ('cells ' + '0' * 1017 + '1\n', 'cells 1\n'), ('own a a1 a2 a11\na1 = (a11 / a2)\n', None), ('own z9\ncells 1\nwhile (z9 < 3)\nz9 = (z9 + 1)\nend\ncell 0 = z9\n', None),
]


def marked(number, text):
    """The text without the mark, and how it is refused."""
    data = text if isinstance(text, bytes) else text.encode()
    assert data.count(b'^') == 1, data[:60]
    return data.replace(b'^', b''), 'refused %d at %d\n' % (number, data.index(b'^'))


def all_texts():
    """(name, text, told): every text with what `rewrite` prints."""
    out = []
    for number, some in ((1, ONE), (2, TWO), (3, THREE)):
        out += [('text-%d-%d' % (number, k),) + marked(number, text) for k, text in enumerate(some, 1)]
    out += [('limit-%d' % k,) + marked(number, text) for k, (number, text) in enumerate(MANY, 1)]
    out += [('high-%d' % k,) + marked(number, text) for k, (number, text) in enumerate(HIGH, 1)]
    out += [('taken-%d' % k, text.encode(), text if anew is None else anew) for k, (text, anew) in enumerate(TAKEN, 1)]
    return out
