#!/usr/bin/env python3
"""Writes the cases that the program `cases` runs.

    python3 tests/make_cases.py > crates/cases/stdin

Every expectation comes from OASIS AMQP 1.0 (Part 1, Part 2), from RFC 3629 or from documents 01 and 02, and is known by the way
the case is made: a value is put together from its parts, or is put together and then damaged in one place. Nothing here
reads AMQP, and nothing is taken from the code that is tested. The tables of codes and of fields are this script's own.

Bytes are text here: hexadecimal digits, with _ between parts and 61*300 for the byte 61 three hundred times.
"""
import re

LINES = []
ANSWERS = {}


def case(letter, numbers, parts, answer, source):
    """One case: letter, numbers, bytes = answer ; source. The same question is asked once."""
    question = ' '.join([letter] + [str(n) for n in numbers] + [p if p else '-' for p in parts])
    if question not in ANSWERS:
        LINES.append('%s = %s ; %s' % (question, answer, source))
    assert ANSWERS.setdefault(question, answer) == answer


def title(text):
    LINES.append('')
    LINES.append('# ' + text)


# ---- bytes as text

def to_bytes(text):
    """The bytes that a text stands for."""
    out = bytearray()
    for piece in text.split('_'):
        for m in re.finditer(r'([0-9A-F]{2})(?:\*(\d+))?', piece):
            out += bytes([int(m.group(1), 16)]) * int(m.group(2) or 1)
    return bytes(out)


def size(text):
    return len(to_bytes(text))


def to_text(data):
    """Bytes as text; nine and more of one byte are counted."""
    out = []
    for m in re.finditer(rb'(.)\1*', data, re.S):
        b, n = m.group(1)[0], len(m.group(0))
        out.append('_%02X*%d_' % (b, n) if n > 8 else '%02X' % b * n)
    return re.sub('__+', '_', ''.join(out)).strip('_')


def join(*parts):
    return '_'.join(p for p in parts if p)


def number(n, width):
    return '%0*X' % (2 * width, n)


def cut(text, n=1):
    """Without the last n bytes."""
    return to_text(to_bytes(text)[:-n])


def ascii_text(s):
    return to_text(s.encode('ascii'))


# ---- values (Part 1)

NULL, TRUE, FALSE, UINT0, ULONG0, LIST0 = '40', '41', '42', '43', '44', '45'


def short(code, body):
    """Variable width with a size of one byte: A0, A1, A3."""
    return join(number(code, 1) + number(size(body), 1) + ('' if '*' in body else body), body if '*' in body else '')


def wide(code, body):
    """Variable width with a size of four bytes: B0, B1, B3."""
    return join(number(code, 1) + number(size(body), 4), body)


def string(s):
    return short(0xA1, ascii_text(s))


def symbol(s):
    return short(0xA3, ascii_text(s))


def compound(code, items, width, size_off=0, count_off=0, count=None):
    """List, map or array with its size and its count; these can be made wrong."""
    body = join(*items)
    count = len(items) if count is None else count
    return join(number(code, 1) + number(width + size(body) + size_off, width) + number(count + count_off, width), body)


def list8(items, **wrong):
    return compound(0xC0, items, 1, **wrong)


def list32(items, **wrong):
    return compound(0xD0, items, 4, **wrong)


def map8(items, **wrong):
    return compound(0xC1, items, 1, **wrong)


def map32(items, **wrong):
    return compound(0xD1, items, 4, **wrong)


def array8(constructor, bodies, **wrong):
    wrong.setdefault('count', len(bodies))
    return compound(0xE0, [constructor] + bodies, 1, **wrong)


def array32(constructor, bodies, **wrong):
    wrong.setdefault('count', len(bodies))
    return compound(0xF0, [constructor] + bodies, 4, **wrong)


def described(descriptor, value):
    return join('00', descriptor, value)


# every code of Part 1 with its section, its name, and one body that it can have
CODES = [
    (0x40, '1.6.1', 'null', ''),
    (0x56, '1.6.2', 'boolean', '01'),
    (0x41, '1.6.2', 'true', ''),
    (0x42, '1.6.2', 'false', ''),
    (0x50, '1.6.3', 'ubyte', 'FE'),
    (0x60, '1.6.4', 'ushort', 'FEDC'),
    (0x70, '1.6.5', 'uint', 'FEDCBA98'),
    (0x52, '1.6.5', 'smalluint', 'FE'),
    (0x43, '1.6.5', 'uint0', ''),
    (0x80, '1.6.6', 'ulong', 'FEDCBA9876543210'),
    (0x53, '1.6.6', 'smallulong', 'FE'),
    (0x44, '1.6.6', 'ulong0', ''),
    (0x51, '1.6.7', 'byte', 'FE'),
    (0x61, '1.6.8', 'short', 'FEDC'),
    (0x71, '1.6.9', 'int', 'FEDCBA98'),
    (0x54, '1.6.9', 'smallint', 'FE'),
    (0x81, '1.6.10', 'long', 'FEDCBA9876543210'),
    (0x55, '1.6.10', 'smalllong', 'FE'),
    (0x72, '1.6.11', 'float', '3FC00000'),
    (0x82, '1.6.12', 'double', '3FF8000000000000'),
    (0x74, '1.6.13', 'decimal32', '22500001'),
    (0x84, '1.6.14', 'decimal64', '2238000000000001'),
    (0x94, '1.6.15', 'decimal128', '22080000000000000000000000000001'),
    (0x73, '1.6.16', 'char', '0001F600'),
    (0x83, '1.6.17', 'timestamp', '00000137A5C3F000'),
    (0x98, '1.6.18', 'uuid', 'F81D4FAE7DEC11D0A76500A0C91E6BF6'),
    (0xA0, '1.6.19', 'vbin8', '03010203'),
    (0xB0, '1.6.19', 'vbin32', '00000003010203'),
    (0xA1, '1.6.20', 'str8-utf8', '03C3A961'),
    (0xB1, '1.6.20', 'str32-utf8', '00000003C3A961'),
    (0xA3, '1.6.21', 'sym8', '03616263'),
    (0xB3, '1.6.21', 'sym32', '00000003616263'),
    (0x45, '1.6.22', 'list0', ''),
    (0xC0, '1.6.22', 'list8', '0402405207'),
    (0xD0, '1.6.22', 'list32', '0000000700000002405207'),
    (0xC1, '1.6.23', 'map8', '0502A1016141'),
    (0xD1, '1.6.23', 'map32', '0000000800000002A1016141'),
    (0xE0, '1.6.24', 'array8', '0402500708'),
    (0xF0, '1.6.24', 'array32', '0000000700000002500708'),
]

WELL_FORMED = 'document 01, well-formed'


def value(text, source, depth=16, ends=True):
    """A value; where it is well formed, it ends with the text unless `ends` says how far."""
    answer = 'refused 6' if ends is False else 'end %d' % (size(text) if ends is True else ends)
    case('v', [depth], [text], answer, source)


def make_values():
    title('Values: every code at its size, with bytes after it, and one byte short')
    value('', 'Part 1 1.2: a value has a constructor', ends=False)
    for code, section, name, body in CODES:
        text = number(code, 1) + body
        source = 'Part 1 %s %s' % (section, name)
        value(text, source)
        value(join(text, 'FF00'), source, ends=size(text))
        if body:
            value(cut(text), source + ', a byte short', ends=False)

    title('Values: every code that Part 1 does not have')
    known = {code for code, _, _, _ in CODES}
    for code in range(1, 256):
        if code not in known:
            value(join(number(code, 1), '00*17'), 'Part 1 1.6 has no such code', ends=False)

    title('Values: booleans of one byte')
    value('5600', 'Part 1 1.6.2')
    for b in ('02', '80', 'FF'):
        value('56' + b, 'document 01, 00 or 01 after 56', ends=False)

    title('Values: binary, string and symbol by their sizes')
    for code, section in ((0xA0, '1.6.19'), (0xA1, '1.6.20'), (0xA3, '1.6.21')):
        source = 'Part 1 ' + section
        value(short(code, ''), source)
        value(short(code, '61*255'), source)
        value(cut(short(code, '61*255')), source + ', a byte short', ends=False)
        value(wide(code + 16, ''), source)
        value(wide(code + 16, '61*255'), source)
        value(wide(code + 16, '61*256'), source)
        value(cut(wide(code + 16, '61*256')), source + ', a byte short', ends=False)
        value(number(code + 16, 1) + 'FFFFFFFF_61*20', source + ', more bytes claimed than there are', ends=False)
    value('A0', 'Part 1 1.6.19, no size', ends=False)
    value('B0_000000', 'Part 1 1.6.19, three bytes of a size', ends=False)
    for text in ('A102C328', 'A301FF', '73FFFFFFFF', '730000D800'):
        value(text, 'document 01, what stands inside is not judged')

    title('Values: lists')
    for make, name in ((list8, 'list8'), (list32, 'list32')):
        source = 'Part 1 1.6.22 ' + name
        two = ['5207', string('ab')]
        value(make([]), source)
        value(make(two), source)
        value(make(two, size_off=-1), source + ', size one less', ends=False)
        value(join(make(two, size_off=1), '40'), source + ', size one more', ends=False)
        value(make(two, size_off=1), source + ', size beyond the end', ends=False)
        value(make(two, count_off=-1), source + ', count one less', ends=False)
        value(make(two, count_off=1), source + ', count one more', ends=False)
        value(make([NULL, '01']), source + ', an item with an unknown code', ends=False)
        value(join(make(['50']), '05'), source + ', an item that runs over the end of the list', ends=False)
    value(list8([], count_off=1), 'Part 1 1.6.22, one claimed and none there', ends=False)
    value(list8([NULL], count_off=-1), 'Part 1 1.6.22, none claimed and one there', ends=False)
    value('C0', 'Part 1 1.6.22, no size', ends=False)
    value('C0_00', 'Part 1 1.6.22, no room for the count', ends=False)
    value('D0_000000', 'Part 1 1.6.22, three bytes of a size', ends=False)
    value('D0_00000003_00000000', 'Part 1 1.6.22, no room for the count', ends=False)
    value('D0_00000004_FFFFFFFF', 'Part 1 1.6.22, many claimed and none there', ends=False)
    value('D0_FFFFFFFF_00000000', 'Part 1 1.6.22, more bytes claimed than there are', ends=False)
    value('C0FFFE_40*254', 'Part 1 1.6.22, the largest list8')
    value('D0_00000103_000000FF_40*255', 'Part 1 1.6.22')

    title('Values: maps')
    for make, name in ((map8, 'map8'), (map32, 'map32')):
        source = 'Part 1 1.6.23 ' + name
        pairs = [string('a'), '41', string('b'), '5207']
        value(make([]), source)
        value(make(pairs[:2]), source)
        value(make(pairs), source)
        value(make(pairs[:1]), 'document 01, an even count in a map', ends=False)
        value(make(pairs[:3]), 'document 01, an even count in a map', ends=False)
        value(make(pairs, size_off=-1), source + ', size one less', ends=False)
        value(join(make(pairs, size_off=1), '40'), source + ', size one more', ends=False)
        value(make(pairs, count_off=-2), source + ', count less by a pair', ends=False)
        value(make(pairs, count_off=2), source + ', count more by a pair', ends=False)
    value('C1_00', 'Part 1 1.6.23, no room for the count', ends=False)

    make_arrays()
    make_levels()

    title('Values: worked examples of Part 1')
    value('A11E_' + ascii_text('Hello Glorious Messaging World'), 'Part 1 1.1.1, example')
    value('00_A103_' + ascii_text('URL') + '_A11E_' + ascii_text('http://example.org/hello-world'), 'Part 1 1.1.2, example')
    value(
        '00_A311_' + ascii_text('example:book:list') + '_C04003_A115_' + ascii_text('AMQP for & by Dummies')
        + '_E02502_A1_0E' + ascii_text('Rob J. Godfrey') + '_13' + ascii_text('Rafael H. Schloming') + '_40',
        'Part 1 1.4, example of a book',
    )


def make_arrays():
    title('Values: arrays of two elements of every kind, and some with the last byte missing')
    for code, section, name, body in CODES:
        source = 'Part 1 1.6.24, of ' + name
        value(array8(number(code, 1), [body, body]), source)
        if code in (0x56, 0x50, 0x60, 0x70, 0x80, 0x98, 0xA1, 0xB0, 0xC0, 0xD1, 0xE0):
            value(array8(number(code, 1), [body, cut(body)]), source + ', a byte short', ends=False)

    title('Values: arrays of elements that take no bytes')
    for code, _, name, body in CODES:
        if body:
            continue
        source = 'Part 1 1.6.24, many of ' + name
        c = number(code, 1)
        value('F0_00000005_FFFFFFFF_' + c, source)
        value('F0_00000006_FFFFFFFF_' + c + 'FF', source + ', and a byte too many', ends=False)

    value('E002FF40', 'Part 1 1.6.24, many of null')

    title('Values: arrays whose elements would take more bytes than there are')
    for code, count in (('50', 0xFFFFFFFF), ('60', 0x80000000), ('70', 0x40000000), ('80', 0x20000000), ('98', 0x10000000), ('56', 0xFFFFFFFF), ('A1', 0xFFFFFFFF)):
        value('F0_00000005_%08X_%s' % (count, code), 'Part 1 1.6.24, more elements claimed than there are bytes', ends=False)

    title('Values: arrays of none')
    for code in ('40', '56', '98', 'A1', 'C0', 'F0'):
        value('E00200' + code, 'Part 1 1.6.24, none of a known code')
    for code in ('01', 'A2', 'FF'):
        value('E00200' + code, 'document 01, known codes', ends=False)
    value('E00100', 'Part 1 1.6.24, no constructor', ends=False)
    value('E00300_4040', 'Part 1 1.6.24, none claimed and a byte there', ends=False)
    value('F0_00000005_00000000_A1', 'Part 1 1.6.24')

    title('Values: arrays, sizes and counts')
    for make, name in ((array8, 'array8'), (array32, 'array32')):
        source = 'Part 1 1.6.24 ' + name
        items = ['0161', '0262' + '63']
        value(make('A1', items), source)
        value(make('A1', items, size_off=-1), source + ', size one less', ends=False)
        value(join(make('A1', items, size_off=1), '00'), source + ', size one more', ends=False)
        value(make('A1', items, count=1), source + ', count one less', ends=False)
        value(make('A1', items, count=3), source + ', count one more', ends=False)
    value('E000', 'Part 1 1.6.24, no room for the count', ends=False)
    value('E00201', 'Part 1 1.6.24, size beyond the end', ends=False)
    value('F0_00000003_000000', 'Part 1 1.6.24, no room for the count', ends=False)
    value('E00402_56_0001', 'Part 1 1.6.24')
    value('E00402_56_0002', 'document 01, 00 or 01 after 56', ends=False)

    title('Values: arrays with a described constructor')
    source = 'Part 1 1.2.4 and 1.6.24, described elements'
    value(array8('00_5305_A1', ['0161', '0162']), source)
    value(array8('00_5305_40', [], count=255), source)
    value('F0_00000008_FFFFFFFF_00_5305_45', source)
    value('F0_00000009_FFFFFFFF_00_5305_45FF', source + ', and a byte too many', ends=False)
    value(array8('00_5305_00_5306_50', ['07', '08']), source + ' twice')
    value(array8('00_A10161_C0', ['0100', '020140']), source)
    value(array8('00_5305_A1', []), source + ', none')
    value(array8('00_5305', []), source + ', no code after the descriptor', ends=False)
    value(array8('00_5305_01', []), 'document 01, known codes', ends=False)
    value(array8('00_01_A1', []), 'document 01, known codes', ends=False)
    value(array8('00_53', []), source + ', a byte short', ends=False)
    value(array8('00_5305_50', ['07'], count=2), source + ', count one more', ends=False)

    title('Values: described values')
    value(described('5305', '40'), 'Part 1 1.2')
    value(described(symbol('a:b'), list8([NULL])), 'Part 1 1.2')
    value(described(NULL, described('43', '41')), 'Part 1 1.2')
    value('00', 'Part 1 1.2, no descriptor', ends=False)
    value('00_5305', 'Part 1 1.2, no value after the descriptor', ends=False)
    value('00_53', 'Part 1 1.2, a byte short', ends=False)
    value('00_5305_01', 'document 01, known codes', ends=False)
    value('00_01_40', 'document 01, known codes', ends=False)


# what adds a level around a value: a list, a map around a value and a key, an array of one, a described value, a descriptor
WRAPS = [
    lambda x: list8([x]),
    lambda x: map8([TRUE, x]),
    lambda x: map8([x, NULL]),
    lambda x: join('E0' + number(size(x) + 1, 1) + '01', x),
    lambda x: described('43', x),
    lambda x: described(x, '41'),
]


def nested(levels, kinds):
    """A value whose innermost value stands at that level."""
    text = NULL
    for i in range(levels - 1):
        text = kinds[i % len(kinds)](text)
    return text


def at_level(levels, text):
    """A value that stands at that level."""
    for _ in range(levels - 1):
        text = list8([text])
    return text


def make_levels():
    title('Values: sixteen levels and no more')
    value(NULL, 'document 01, sixteen deep')
    for kinds, name, first in (
        (WRAPS[0:1], 'lists', 2), (WRAPS[1:2], 'maps', 2), (WRAPS[3:4], 'arrays', 2), (WRAPS[4:5], 'described values', 2), (WRAPS, 'all of these', 2),
        (WRAPS[2:3], 'keys of maps', 16), (WRAPS[5:6], 'descriptors', 16), (WRAPS[::-1], 'all of these', 16),
    ):
        for levels in range(first, 18):
            value(nested(levels, kinds), 'document 01, sixteen deep: level %d in %s' % (levels, name), ends=levels <= 16)
    for inner in ('45', 'C00100', 'C10100'):
        for levels in (16, 17):
            value(at_level(levels, inner), 'document 01, sixteen deep: an empty list or map at level %d' % levels, ends=levels <= 16)

    title('Values: arrays near the last level, with the last at which each may stand')
    for last, text, name in (
        (16, 'E00200_40', 'an array of none'), (16, 'F0_00000005_00000000_40', 'an array of none'), (16, 'E00200_E0', 'an array of no arrays'),
        (15, 'E00201_40', 'an array of one'), (15, 'E00501_E0_020040', 'an array of an array of none'),
        (14, 'E00500_00_5301_40', 'an array of none, described'), (14, 'E00501_00_5301_40', 'an array of one, described'),
        (13, 'E00800_00_5301_00_5302_40', 'an array of none, described twice'), (13, 'E00801_00_5301_00_5302_40', 'an array of one, described twice'),
        (0, 'E00200_57', 'an array of none of an unknown code'), (0, 'E00100', 'an array with no constructor'), (0, 'E00300_4040', 'an array of none and a byte'),
    ):
        for levels in range(13, 18):
            value(at_level(levels, text), 'document 01, sixteen deep, judged where a value stands: %s at level %d' % (name, levels), ends=levels <= last)

    title('Values: other numbers of levels')
    source = 'document 01, levels; here their number is an argument'
    for text in (NULL, 'C00100'):
        value(text, source, depth=0, ends=False)
        value(text, source, depth=1)
    for wrap in WRAPS:
        value(wrap(NULL), source, depth=1, ends=False)
        value(wrap(NULL), source, depth=2)
    value(nested(17, WRAPS[:1]), source, depth=17)
    value(nested(40, WRAPS[:1]), source, depth=40)
    value(nested(41, WRAPS[:1]), source, depth=40, ends=False)
    value(nested(60, WRAPS[:1]), source, depth=255)


# ---- protocol headers and text

def make_headers():
    title('Protocol headers')
    amqp = ascii_text('AMQP')
    wall = 'document 01, wall case'
    case('h', [], [amqp + '_00010000'], 'amqp', wall)
    case('h', [], [amqp + '_03010000'], 'other 3 1 0 0', wall)
    case('h', [], [amqp + '_01010000'], 'refused 2', wall)
    case('h', [], [amqp + '_02010000'], 'other 2 1 0 0', 'document 01, id 0, 2 or 3')
    case('h', [], [amqp + '_00010000_00000008'], 'amqp', 'document 01, a header has 8 bytes')
    for tail, words in (('00000000', '0 0 0 0'), ('00000901', '0 0 9 1'), ('00010001', '0 1 0 1'), ('00010100', '0 1 1 0'), ('00020000', '0 2 0 0'), ('00FFFFFF', '0 255 255 255'), ('02000000', '2 0 0 0'), ('03FFFEFD', '3 255 254 253')):
        case('h', [], [amqp + '_' + tail], 'other ' + words, 'Part 2 2.2')
    for id_ in ('04', '05', '10', '7F', '80', 'FF'):
        case('h', [], [amqp + '_' + id_ + '010000'], 'refused 2', 'document 01, id 0, 2 or 3')
    for prefix in ('40', '414C', '414D50', '414D5151', '61', '616D7170'):
        text = (prefix + amqp[len(prefix):])
        case('h', [], [text + '_00010000'], 'refused 2', 'document 01, a header begins 41 4D 51 50')
    case('h', [], ['00*8'], 'refused 2', 'document 01, a header begins 41 4D 51 50')
    whole = amqp + '00010000'
    for n in range(8):
        case('h', [], [whole[:2 * n]], 'refused 1', 'document 01, header under 8')
    case('h', [], ['FF*7'], 'refused 1', 'document 01, 1 before 2')


def make_text():
    title('UTF-8')
    source = 'RFC 3629 section 4'
    good = '- 00 7F C280 DFBF E0A080 E0BFBF E18080 ECBFBF ED8080 ED9FBF EE8080 EFBFBF F0908080 F0BFBFBF F1808080 F3BFBFBF F4808080 F48FBFBF'
    bad = '80 BF C080 C1BF C2 C27F C2C0 E0A0 E09FBF E08080 E0A07F E0C080 E180 E18041 EDA080 EDBFBF EFBF EFBFC0 F08FBFBF F0808080 F09080 F0908041 F180C080 F4908080 F5808080 F8888080 FE FF 61FF FF61 C28080'
    for text in good.split():
        case('u', [], [text], 'yes', source)
    for text in bad.split():
        case('u', [], [text], 'no', source)
    case('u', [], ['41E289A2CE912E'], 'yes', 'RFC 3629 section 7, example')
    case('u', [], ['ED959CEAB5ADEC96B4'], 'yes', 'RFC 3629 section 7, example')
    case('u', [], ['E697A5E69CACE8AA9E'], 'yes', 'RFC 3629 section 7, example')
    case('u', [], ['EFBBBFF0A38EB4'], 'yes', 'RFC 3629 section 7, example')
    case('u', [], ['61*255'], 'yes', source)
    case('u', [], ['61*254_80'], 'no', source)
    case('u', [], ['61*254_C2'], 'no', source)

    title('ASCII')
    for text in ('-', '00', '7F', '61*255'):
        case('a', [], [text], 'yes', 'document 01, a condition is ASCII')
    for text in ('80', 'FF', '6180', '8061', '7F*254_80'):
        case('a', [], [text], 'no', 'document 01, a condition is ASCII')


# ---- performatives (Part 2 2.7)

ERROR_TEXT = 'amqp:not-found'


def error(fields, descriptor='531D', make=list8):
    return described(descriptor, make(fields) if fields else LIST0)


ERROR = error([symbol(ERROR_TEXT), string('gone'), 'C10100'])

# descriptor, section, name, and for each field a value of the type that Part 2 gives it
PERFORMATIVES = [
    (16, '2.7.1', 'open', [string('p1'), string('hub.local'), '7000001000', '600007', '7000007530', symbol('en-US'), symbol('en-US'), symbol('a'), array8('A3', ['0161', '0162']), map8([symbol('product'), string('hub')])]),
    (17, '2.7.2', 'begin', ['600005', '43', '52FF', '7000000800', '52FF', symbol('a'), symbol('b'), 'C10100']),
    (18, '2.7.3', 'attach', [string('link'), '43', '41', '5002', '5000', described('5328', LIST0), described('5329', list8([string('q')])), 'C10100', '42', '43', '8000000000FFFFFFFF', symbol('a'), symbol('b'), 'C10100']),
    (19, '2.7.4', 'flow', ['43', '7000000800', '5201', '7000000800', '43', '43', '5264', '43', '42', '42', 'C10100']),
    (20, '2.7.5', 'transfer', ['43', '5201', 'A00101', '43', '41', '42', '5000', described('5324', LIST0), '42', '42', '42']),
    (21, '2.7.6', 'disposition', ['41', '5201', '5202', '41', described('5324', LIST0), '42']),
    (22, '2.7.7', 'detach', ['43', '41', ERROR]),
    (23, '2.7.8', 'end', [ERROR]),
    (24, '2.7.9', 'close', [ERROR]),
]
FIELDS = {name: (code, section, fields) for code, section, name, fields in PERFORMATIVES}
# which field of a performative is its error
ERROR_AT = {'detach': 2, 'end': 0, 'close': 0}


def performative(code, fields, make=list8, descriptor=None):
    head = '0053' + number(code, 1) if descriptor is None else '00_' + descriptor
    return join(head, LIST0 if make is None else make(fields))


def shape(fields):
    """The list form for so many fields: 45, C0 or D0."""
    return None if not fields else list8 if size(join(*fields)) < 255 else list32


def said(name, text, **values):
    """The words for a performative that takes the whole text, with what the fields say."""
    if name == 'open':
        words = 'open %d %d %d' % (values.get('size', 0xFFFFFFFF), values.get('channels', 0xFFFF), values.get('idle', 0))
    elif name == 'begin':
        words = 'begin %s' % values.get('remote', 'none')
    elif name in ERROR_AT:
        at = values.get('error')
        words = '%s none' % name if at is None else '%s error %d %d' % (name, at[0], at[1])
    else:
        words = name
    return '%s end %d' % (words, size(text))


def condition_place(text, condition):
    """Where the bytes of a condition lie in a text that has them once."""
    data, wanted = to_bytes(text), to_bytes(condition)
    assert data.count(wanted) == 1
    return data.index(wanted), len(wanted)


def sample_said(name, fields, text):
    """What is said of a performative with these first fields of the table's row."""
    values = {}
    if name == 'open':
        for i, key, n in ((2, 'size', 4096), (3, 'channels', 7), (4, 'idle', 30000)):
            if i < len(fields):
                values[key] = n
    elif name == 'begin' and fields:
        values['remote'] = 5
    elif name in ERROR_AT and ERROR_AT[name] < len(fields):
        values['error'] = condition_place(text, ascii_text(ERROR_TEXT))
    return said(name, text, **values)


def least(name):
    """How many of the first fields may not be missing (document 01)."""
    return {'open': 1, 'begin': 4}.get(name, 0)


def body(text, answer, source):
    case('p', [], [text], answer, source)


def make_performatives():
    title('Performatives: from no field to one too many')
    for code, section, name, fields in PERFORMATIVES:
        for n in range(len(fields) + 2):
            some = fields[:n] + [NULL] * (n - len(fields))
            text = performative(code, some, shape(some))
            if n < least(name):
                body(text, 'refused 6', 'document 01, %s: a field that may not be null is missing' % name)
            elif n > len(fields):
                body(text, 'refused 6', 'document 01, most fields of %s' % name)
            else:
                body(text, sample_said(name, some, text), 'Part 2 ' + section)

    title('Performatives: descriptors 80 and 44, lists C0 and D0')
    for code, section, name, fields in PERFORMATIVES:
        text = performative(code, fields, shape(fields), '80' + number(code, 8))
        body(text, sample_said(name, fields, text), 'Part 2 %s, descriptor 80' % section)
        text = performative(code, fields, list32)
        body(text, sample_said(name, fields, text), 'Part 2 %s, list D0' % section)
        make = list8 if code % 2 else list32
        text = performative(code, [], make)
        body(text, 'refused 6' if least(name) else said(name, text), 'Part 2 %s, no fields' % section)
    for make in (None, list8):
        body(performative(0, [], make, ULONG0), 'refused 6', 'document 01, descriptor 44 is 0, which is none')

    title('Performatives: what is none')
    for code in (0, 15, 25, 29, 255):
        body(performative(code, [], None), 'refused 6', 'document 01, descriptors 16 to 24')
    for n in (0x0000000100000018, 0x1800000000000000, 0x0000000000000118):
        body(performative(0, [], None, '80' + number(n, 8)), 'refused 6', 'document 01, descriptors 16 to 24')
    for d in (symbol('amqp:close:list'), '5218', '7000000018', '5018', '5518', '810000000000000018', NULL):
        body(performative(0, [], None, d), 'refused 6', 'document 01, a ulong descriptor (53, 80 or 44)')
    for text in ('', '00', '0053', '005318', '0080_00000000000000', '0080_0000000000000018', '45', '015318_45', '5318_45'):
        body(text, 'refused 6', 'document 01, a performative is 00, a descriptor, a list')
    for text in ('40', '41', 'C10100', 'D1_00000004_00000000', 'E0020040', '00531845', '01'):
        body('005318_' + text, 'refused 6', 'document 01, a list (45, C0, D0)')

    title("Performatives: the list's size and count")
    for make, name in ((list8, 'C0'), (list32, 'D0')):
        source = 'document 01, exact sizes and counts, list ' + name
        fields = ['43', '5201', 'A00101']
        body(performative(20, fields, lambda f: make(f, size_off=-1)), 'refused 6', source + ', size one less')
        body(join(performative(20, fields, lambda f: make(f, size_off=1)), '40'), 'refused 6', source + ', size one more')
        body(performative(20, fields, lambda f: make(f, size_off=1)), 'refused 6', source + ', size beyond the end')
        body(performative(20, fields, lambda f: make(f, count_off=-1)), 'refused 6', source + ', count one less')
        body(performative(20, fields, lambda f: make(f, count_off=1)), 'refused 6', source + ', count one more')
        body(cut(performative(20, fields, make)), 'refused 6', source + ', a byte short')
        body(performative(20, fields + ['5602'], make), 'refused 6', 'document 01, 00 or 01 after 56')
    for text in ('005314_C0', '005314_C000', '005314_D0_000000', '005314_D0_00000003_000000'):
        body(text, 'refused 6', 'document 01, exact sizes and counts')
    body('005314_D0_00000004_FFFFFFFF', 'refused 6', 'document 01, exact sizes and counts')

    title('Performatives: bytes after them')
    for code, section, name, fields in PERFORMATIVES:
        text = performative(code, fields, shape(fields))
        source = 'document 01, payload' if name == 'transfer' else 'document 01, bytes after it are unread'
        body(join(text, 'DEADBEEF'), sample_said(name, fields, text), source)
    body('005314_45_' + '01', 'transfer end 4', 'document 01, payload')

    title('Performatives: a field that is not well formed')
    for code, section, name, fields in PERFORMATIVES:
        text = performative(code, fields[:-1] + ['5602'], list8)
        body(text, 'refused 6', 'document 01, the last field of %s is not well-formed' % name)
    make_checked()
    make_errors()

    title('Performatives: levels of their fields')
    deep = WRAPS[:1]
    for levels in (16, 17):
        source = 'document 01, sixteen deep: a field is level 1'
        fields = [nested(levels, deep)]
        text = performative(18, fields)
        body(text, said('attach', text) if levels == 16 else 'refused 6', source)
        fields = FIELDS['open'][2][:9] + [nested(levels, deep)]
        text = performative(16, fields)
        body(text, sample_said('open', fields, text) if levels == 16 else 'refused 6', source)
        # an error is level 1, its list level 2, the fields in that level 3
        for where in (1, 2):
            parts = [symbol(ERROR_TEXT)] + [NULL] * (where - 1) + [nested(levels - 2, deep)]
            text = performative(24, [error(parts)])
            place = condition_place(text, ascii_text(ERROR_TEXT))
            body(text, said('close', text, error=place) if levels == 16 else 'refused 6', "document 01, sixteen deep: an error's fields are level 3")


def make_checked():
    title('Performatives: the checked fields of Open and Begin')
    uints = [('7000000005', 5), ('70FFFFFFFF', 0xFFFFFFFF), ('52FF', 255), ('43', 0)]
    ushorts = [('600000', 0), ('60FFFF', 65535)]
    strings = [(string('x'), None), (short(0xA1, ''), None), (wide(0xB1, ascii_text('x')), None), ('A101FF', None)]
    wrong = {
        'uint': ['600005', '5305', '5405', string('5'), described('43', '5205')],
        'ushort': ['5005', '5205', '43', '610005', described('43', '600005')],
        'string': [symbol('x'), short(0xA0, '78'), '5205', LIST0, described('43', string('x'))],
    }
    right = {'uint': uints, 'ushort': ushorts, 'string': strings}
    rows = {
        'open': [('string', True, None), ('string', False, None), ('uint', False, 'size'), ('ushort', False, 'channels'), ('uint', False, 'idle')],
        'begin': [('ushort', False, 'remote'), ('uint', True, None), ('uint', True, None), ('uint', True, None), ('uint', False, None)],
    }
    plain = {'open': {'size': 4096, 'channels': 7, 'idle': 30000}, 'begin': {'remote': 5}}
    null_is = {'size': 0xFFFFFFFF, 'channels': 65535, 'idle': 0, 'remote': 'none'}
    for name in ('open', 'begin'):
        code, section, sample = FIELDS[name]
        for i, (kind, needed, key) in enumerate(rows[name]):
            def with_field(v):
                return performative(code, sample[:i] + [v] + sample[i + 1:5], list8)
            source = 'document 01, field %d of %s is a %s' % (i + 1, name, kind)
            for v, n in right[kind]:
                values = dict(plain[name])
                if key:
                    values[key] = n
                body(with_field(v), said(name, with_field(v), **values), source)
            values = dict(plain[name])
            if key:
                values[key] = null_is[key]
            answer = 'refused 6' if needed else said(name, with_field(NULL), **values)
            body(with_field(NULL), answer, 'document 01, field %d of %s %s null' % (i + 1, name, 'is not' if needed else 'may be'))
            for v in wrong[kind]:
                body(with_field(v), 'refused 6', source)


def make_errors():
    title('Performatives: the error of Detach, End and Close')
    condition = ascii_text(ERROR_TEXT)
    named = symbol(ERROR_TEXT)
    right = [
        error([named]), error([named, string('gone')]), error([named, NULL]), error([named, NULL, NULL]),
        error([named, string('gone'), map8([symbol('k'), '43'])]), error([named, '5205', LIST0]),
        error([wide(0xB3, condition), string('gone')]), error([named], make=list32), error([named], '80' + number(29, 8)),
    ]
    wrong = [
        (error([named], '531C'), 'descriptor 29'), (error([named], '531E'), 'descriptor 29'), (error([named], '5318'), 'descriptor 29'),
        (error([named], ULONG0), 'descriptor 29'), (error([named], '521D'), 'descriptor 29'), (error([named], symbol('amqp:error:list')), 'descriptor 29'),
        (error([]), 'one to three fields'), (described('531D', 'C00100'), 'one to three fields'),
        (error([named, NULL, NULL, NULL]), 'one to three fields'),
        (error([NULL]), 'the first a symbol'), (error([string(ERROR_TEXT)]), 'the first a symbol'), (error([short(0xA0, condition)]), 'the first a symbol'),
        (error([NULL, string('gone')]), 'the first a symbol'), (error([described('43', named)]), 'the first a symbol'),
        (list8([named]), 'null or descriptor 29'), (named, 'null or descriptor 29'), ('41', 'null or descriptor 29'), (LIST0, 'null or descriptor 29'),
        (described('531D', map8([named, NULL])), 'an error is a list'), (described('531D', named), 'an error is a list'),
        (error([named, '5602']), 'well-formed'), (described('531D', list8([named], count_off=1)), 'exact sizes and counts'),
        (described('531D', list8([named], size_off=-1)), 'exact sizes and counts'),
    ]
    for name in ('close', 'end', 'detach'):
        code = FIELDS[name][0]
        before = ['43', '41'] if name == 'detach' else []
        few = name != 'close'
        text = performative(code, before + [NULL])
        body(text, said(name, text), 'document 01, an error is null or descriptor 29')
        for e in right[2::3] if few else right:
            text = performative(code, before + [e])
            body(text, said(name, text, error=condition_place(text, condition)), 'document 01, error of %s' % name)
        for e, why in wrong[::3] if few else wrong:
            body(performative(code, before + [e]), 'refused 6', 'document 01, error of %s: %s' % (name, why))
    for c in (short(0xA3, ''), 'A302FFFE', wide(0xB3, ''), short(0xA3, '61*200'), wide(0xB3, '61*256')):
        fields = [error([c], make=list8 if size(c) < 255 else list32)]
        text = performative(24, fields, shape(fields))
        head = 2 if c.startswith('A') else 5
        body(text, said('close', text, error=(size(text) - size(c) + head, size(c) - head)), 'document 01, what stands inside a symbol is not judged')


# ---- frames (Part 2 2.3)

def frame(channel, *parts, length=None, doff=2, type_=0):
    text = join(*parts)
    length = 8 + size(text) if length is None else length
    return join(number(length, 4), number(doff, 1) + number(type_, 1) + number(channel, 2), text)


def plain(name):
    """A performative with the fewest fields that it may have."""
    code, _, fields = FIELDS[name]
    some = fields[:least(name)]
    return performative(code, some, shape(some))


CLOSE, ATTACH, TRANSFER = plain('close'), plain('attach'), plain('transfer')
BAD = '005318_41'


def read(limit, highest, text, answer, source):
    case('f', [limit, highest], [text], answer, source)


def frame_said(channel, text, name=None, body_text=None, **values):
    if name is None:
        return 'empty %d %d 8' % (channel, size(text))
    return 'frame %d %d 8 %s' % (channel, size(text), said(name, body_text, **values))


def refused(limit, highest, text, number_, source):
    read(limit, highest, text, 'refused %d' % number_, source)


def make_frames():
    title('Frames read: bytes missing, and lengths')
    empty = '00000008_02000000'
    read(512, 7, empty, 'empty 0 8 8', 'document 01, wall case')
    refused(512, 7, '00000007_02000000', 3, 'document 01, wall case')
    refused(512, 7, '00000200', 1, 'document 01, wall case: limit 512, length 512')
    refused(512, 7, '00000201', 4, 'document 01, wall case: limit 512, length 513')
    for n in range(4):
        refused(512, 7, '000000'[:2 * n], 1, 'document 01, frame under 4')
    refused(512, 7, 'FFFFFF', 1, 'document 01, frame under 4')
    for n in range(7):
        refused(512, 7, '0000000%d_02000000' % n, 3, 'document 01, length under 8')
    refused(512, 7, '00000007', 3, 'document 01, length under 8')
    for n in range(4, 8):
        refused(512, 7, to_text(to_bytes(empty)[:n]), 1, 'document 01, under its length')
    read(512, 7, join(empty, 'FF'), 'empty 0 8 8', 'document 01, a frame is its length')
    refused(512, 7, cut(frame(0, CLOSE)), 1, 'document 01, under its length')
    read(512, 7, join(frame(0, CLOSE), 'FFFFFFFF'), frame_said(0, frame(0, CLOSE), 'close', CLOSE), 'document 01, a frame is its length')
    refused(512, 7, join(frame(0, CLOSE, length=11), '00'), 6, 'document 01, the body ends with the frame')

    title('Frames read: the reading limit')
    for limit in (8, 4096, 16384):
        refused(limit, 7, number(limit + 1, 4), 4, 'document 01, length over the reading limit')
        refused(limit, 7, number(limit, 4) + '020000', 1, 'document 01, under its length')
    refused(4294967295, 7, 'FFFFFFFF_02000000', 1, 'document 01, under its length')
    refused(4294967294, 7, 'FFFFFFFF_02000000', 4, 'document 01, length over the reading limit')
    refused(7, 7, empty, 4, 'document 01, length over the reading limit')
    refused(0, 7, empty, 4, 'document 01, length over the reading limit')
    for payload in (499, 500, 501):
        text = frame(1, TRANSFER, 'AB*%d' % payload)
        answer = frame_said(1, text, 'transfer', TRANSFER)
        read(512, 7, text, answer if size(text) <= 512 else 'refused 4', 'document 01, length over the reading limit')
    text = frame(1, TRANSFER, 'AB*16372')
    read(16384, 7, text, frame_said(1, text, 'transfer', TRANSFER), 'document 01, length over the reading limit')
    read(16383, 7, text, 'refused 4', 'document 01, length over the reading limit')

    title('Frames read: type and doff')
    for doff, type_ in ((2, 1), (2, 2), (2, 255), (0, 0), (1, 0), (3, 0), (255, 0), (0, 2)):
        refused(512, 7, frame(0, CLOSE, doff=doff, type_=type_), 5, 'document 01, type not 0 or doff not 2')
    refused(512, 7, frame(0, '00000000', CLOSE, doff=3), 5, 'document 01, doff above 2 is refused')
    refused(512, 7, frame(0, doff=3), 5, 'document 01, type not 0 or doff not 2')

    title('Frames read: channels')
    for text_of, name, body_text in ((lambda c: frame(c), None, None), (lambda c: frame(c, CLOSE), 'close', CLOSE), (lambda c: frame(c, plain('open')), 'open', plain('open')), (lambda c: frame(c, ATTACH), 'attach', ATTACH)):
        for highest, channel in ((7, 7), (7, 8), (0, 1), (255, 256)):
            text = text_of(channel)
            answer = frame_said(channel, text, name, body_text) if channel <= highest else 'refused 7'
            read(512, highest, text, answer, 'document 01, incoming channel above the local channel-max')
    read(512, 65535, frame(65535), frame_said(65535, frame(65535)), 'document 01, incoming channel')
    refused(512, 65534, frame(65535), 7, 'document 01, incoming channel')

    title('Frames read: every performative')
    for code, section, name, fields in PERFORMATIVES:
        text = performative(code, fields, shape(fields))
        whole = frame(3, text)
        read(512, 7, whole, 'frame 3 %d 8 %s' % (size(whole), sample_said(name, fields, text)), 'Part 2 ' + section)
        whole = frame(3, text, 'CAFE')
        read(512, 7, whole, 'frame 3 %d 8 %s' % (size(whole), sample_said(name, fields, text)), 'document 01, payload' if name == 'transfer' else 'document 01, bytes after it are unread')
    opened = '0000001B02000000005310C00E04A102703140_7000001000_600007'
    read(512, 7, opened, 'frame 0 27 8 open 4096 7 0 end 19', "document 01, wall case: the Open")
    for text in (BAD, '00', '45', '005319_45', '005310_45', '005311_45'):
        refused(512, 7, frame(0, text), 6, 'document 01, body malformed')

    title('Frames read: two faults at once, of which the first in the order 1, 3, 4, 1, 5, 7, 6 decides')
    order = 'document 01, order of refusals: %s'
    refused(4, 7, '00000007', 3, order % '3 before 4')
    refused(512, 7, '00000005', 3, order % '3 before missing bytes')
    refused(512, 7, '00000007_03010009_FF', 3, order % '3 before 5, 7 and 6')
    refused(512, 7, '00000201_020000', 4, order % '4 before missing bytes')
    refused(512, 7, '00000201_03010009_FF', 4, order % '4 before 5, 7 and 6')
    refused(11, 7, frame(0, CLOSE, doff=3), 4, order % '4 before 5')
    refused(11, 7, frame(8, CLOSE), 4, order % '4 before 7')
    refused(11, 7, frame(0, BAD), 4, order % '4 before 6')
    refused(512, 7, cut(frame(0, CLOSE, type_=1)), 1, order % 'missing bytes before 5')
    refused(512, 7, cut(frame(8, CLOSE)), 1, order % 'missing bytes before 7')
    refused(512, 7, cut(frame(0, '005399_41')), 1, order % 'missing bytes before 6')
    refused(512, 7, frame(8, CLOSE, type_=1), 5, order % '5 before 7')
    refused(512, 7, frame(0, BAD, doff=1), 5, order % '5 before 6')
    refused(512, 7, frame(8, BAD), 7, order % '7 before 6')
    refused(512, 7, frame(8, BAD, doff=0, type_=9), 5, order % '5 before 7 and 6')


def begin(remote, *rest):
    return performative(17, [NULL if remote is None else '60' + number(remote, 2), '43', '52FF', '52FF'] + list(rest))


SESSION = ['begin', 'attach', 'flow', 'transfer', 'disposition', 'detach', 'end']


def session(highest, text, answer, source):
    case('s', [highest], [text], answer, source)


def make_session_frames():
    title('Session frames to be sent: every performative')
    for code, section, name, fields in PERFORMATIVES:
        text = performative(code, fields, shape(fields))
        whole = frame(3, text)
        if name in SESSION:
            session(7, whole, 'frame 3 %d 8 %s' % (size(whole), sample_said(name, fields, text)), 'Part 2 ' + section)
            session(7, join(whole, 'FF'), 'frame 3 %d 8 %s' % (size(whole), sample_said(name, fields, text)), "document 01, a lone one's bytes past its length are not looked at")
            more = frame(3, text, 'CAFE')
            answer = 'frame 3 %d 8 %s' % (size(more), sample_said(name, fields, text)) if name == 'transfer' else 'refused 6'
            session(7, more, answer, 'document 01, payload' if name == 'transfer' else 'document 01, one written out must end with its body')
        else:
            session(7, whole, 'refused 6', 'document 01, not a session performative')
    session(7, frame(3), 'refused 6', 'document 01, not a session performative')
    session(7, frame(3, CLOSE), 'refused 6', 'document 01, not a session performative')
    session(7, frame(3, '005310_45'), 'refused 6', 'document 01, body malformed')

    title('Session frames to be sent: channels and lengths')
    for channel in (8, 255, 256, 65535):
        text = frame(channel, ATTACH)
        session(7, text, frame_said(channel, text, 'attach', ATTACH), "document 01, 7 is about an incoming channel or a written Begin's remote-channel")
    text = frame(65535, begin(7))
    session(7, text, frame_said(65535, text, 'begin', begin(7), remote=7), "document 01, a written Begin's remote-channel")
    for highest, remote in ((7, 7), (7, 8), (0, 0), (0, 1), (255, 255), (255, 256), (65535, 65535), (7, None)):
        text = frame(0, begin(remote))
        fits = remote is None or remote <= highest
        answer = frame_said(0, text, 'begin', begin(remote), remote='none' if remote is None else remote) if fits else 'refused 7'
        session(highest, text, answer, "document 01, a written Begin's remote-channel above the local channel-max")
    text = frame(0, TRANSFER, 'AB*17000')
    session(7, text, frame_said(0, text, 'transfer', TRANSFER), 'document 01, 4 is about a read frame')

    title('Session frames to be sent: refusals and their order 1, 3, 1, 5, 6, 7')
    for n in range(4):
        session(7, '000000'[:2 * n], 'refused 1', 'document 01, frame under 4')
    for text in ('00000000', '00000007', '00000007_02000000'):
        session(7, text, 'refused 3', 'document 01, length under 8')
    session(7, '00000008', 'refused 1', 'document 01, under its length')
    session(7, 'FFFFFFFF_02000000', 'refused 1', 'document 01, 4 is about a read frame')
    session(7, cut(frame(0, ATTACH)), 'refused 1', 'document 01, under its length')
    session(7, cut(frame(0, ATTACH, type_=1)), 'refused 1', 'document 01, missing bytes before 5')
    for doff, type_ in ((2, 1), (1, 0), (3, 0)):
        session(7, frame(0, ATTACH, doff=doff, type_=type_), 'refused 5', 'document 01, type not 0 or doff not 2')
    session(7, frame(0, CLOSE, type_=1), 'refused 5', 'document 01, 5 before 6')
    session(7, frame(0, begin(8), doff=3), 'refused 5', 'document 01, 5 before 7')
    session(7, frame(0, begin(8), '00'), 'refused 6', 'document 01, for a written Begin 6 before 7')
    session(7, frame(0, performative(17, ['600008', '43', '52FF'])), 'refused 6', 'document 01, for a written Begin 6 before 7')
    session(7, frame(0, begin(8, NULL, '5602')), 'refused 6', 'document 01, for a written Begin 6 before 7')

    title('Several session frames')
    a, b, t = frame(1, ATTACH), frame(2, begin(3)), frame(300, TRANSFER, 'CAFE')
    whole = 'document 01, one slice of whole frames'
    for text, n in (('', 0), (a, 1), (join(a, b), 2), (join(b, t, a), 3), (join(t, t, t, t), 4)):
        case('n', [7], [text], 'frames %d' % n, whole)
    for text, k in (
        ('00', 1), (join(a, '00'), 1), (join(a, '000000'), 1), (join(a, '00000008'), 1), (cut(join(a, b)), 1), (cut(a), 1),
        (join(a, '00000007'), 3), (join(a, frame(0, ATTACH, type_=1)), 5), (join(a, frame(0)), 6), (frame(0, CLOSE), 6),
        (join(a, frame(0, plain('open')), b), 6), (join(a, frame(0, ATTACH, '00'), b), 6), (join(a, frame(0, begin(8))), 7),
        (join(frame(0, begin(8)), frame(0, CLOSE)), 7), (join(frame(0, CLOSE), frame(0, begin(8))), 6), (join(frame(0, begin(8)), '00'), 7),
    ):
        case('n', [7], [text], 'refused %d' % k, whole + ', the first one refused decides')


# ---- frames written

ROOM = 16384


def uint(n):
    """The shortest uint."""
    return UINT0 if n == 0 else '52' + number(n, 1) if n < 256 else '70' + number(n, 4)


def written(fields, code):
    """A performative in the written form: trailing nulls dropped, descriptor 53, the shortest list."""
    fields = list(fields)
    while fields and fields[-1] == NULL:
        fields.pop()
    return performative(code, fields, shape(fields))


def wrote(text):
    return 'wrote ' + text


def make_written():
    title('Open written')

    def opened(container, frame_size, channels, idle):
        fields = [short(0xA1, container), NULL, uint(frame_size), '60' + number(channels, 2), NULL if idle is None else uint(idle)]
        return frame(0, written(fields, 16))

    def case_open(container, frame_size, channels, idle, source, answer=None, limit=512, room=ROOM):
        idles = [0, 0] if idle is None else [1, idle]
        text = wrote(opened(container, frame_size, channels, idle)) if answer is None else answer
        case('o', [room, limit, frame_size, channels] + idles, [container], text, source)

    p1 = ascii_text('p1')
    case_open(p1, 4096, 7, None, 'document 01, wall case', wrote('0000001B_02000000_005310_C00E04_A1027031_40_7000001000_600007'))
    form = 'document 01, written form'
    for idle in (0, 1, 255, 256, 4294967295):
        case_open(p1, 4096, 7, idle, form + ': idle-time-out')
    for frame_size in (512, 16384):
        case_open(p1, frame_size, 7, None, form + ': max-frame-size')
    for channels in (0, 255):
        case_open(p1, 512, channels, None, form + ': channel-max')
    for channels in (256, 65535):
        case_open(p1, 512, channels, None, 'document 02, wish 9: channel-max')
    for container in ('', '61', 'C3A9', '61*243', '61*244', '61*255'):
        case_open(container, 512, 7, None, form + ': container-id')
    case_open('61*238', 512, 7, 256, form + ': container-id')
    case_open('61*239', 512, 7, 256, form + ': container-id')
    limits = 'document 01, a setting beyond its limit'
    for frame_size in (0, 511, 16385, 4294967295):
        case_open(p1, frame_size, 7, None, limits, 'refused 8')
    case_open('61*256', 512, 7, None, limits, 'refused 8')
    for container in ('FF', 'C3', '61C328', 'EDA080'):
        case_open(container, 512, 7, None, 'document 01, a container-id that is not UTF-8', 'refused 8')
    long_one = opened('61*255', 16384, 255, 4294967295)
    for limit, answer in ((size(long_one), wrote(long_one)), (size(long_one) - 1, 'refused 27'), (512, wrote(long_one)), (0, 'refused 27')):
        case_open('61*255', 16384, 255, 4294967295, 'document 01, frame over the writing limit', answer, limit=limit)
    case_open(p1, 4096, 7, None, 'document 01, frame over the writing limit', limit=27)
    case_open(p1, 4096, 7, None, 'document 01, frame over the writing limit', 'refused 27', limit=26)
    room = 'document 01, lent output under 16,384 bytes'
    case_open(p1, 4096, 7, None, room, room=16385)
    case_open(p1, 4096, 7, None, room, 'refused 9', room=16383)
    case_open(p1, 4096, 7, None, room, 'refused 9', room=0)
    case_open('FF', 4096, 7, None, 'document 01, 9 before 8', 'refused 9', room=16383)
    case_open('FF', 4096, 7, None, 'document 01, 8 before 27', 'refused 8', limit=0)
    case_open(p1, 4096, 7, None, 'document 01, 9 before 27', 'refused 9', room=16383, limit=0)

    title('Close and empty frames written')
    closed, empty = '0000000C_02000000_005318_45', '00000008_02000000'
    for letter, text, source in (('c', closed, 'document 01, wall case: Close without error'), ('t', empty, 'Part 2 2.4.5, an empty frame')):
        n = size(text)
        case(letter, [ROOM, 512], [], wrote(text), source)
        case(letter, [ROOM, n], [], wrote(text), source)
        case(letter, [ROOM + 1, 16384], [], wrote(text), source)
        case(letter, [ROOM, n - 1], [], 'refused 27', 'document 01, frame over the writing limit')
        case(letter, [ROOM, 0], [], 'refused 27', 'document 01, frame over the writing limit')
        case(letter, [ROOM - 1, 512], [], 'refused 9', room)
        case(letter, [0, 0], [], 'refused 9', room)

    title('Close with an error written')

    def failed(condition, description):
        texts = [short(0xA3, condition), NULL if description is None else short(0xA1, description)]
        return frame(0, written([written(texts, 29)], 24))

    def case_error(condition, description, source, answer=None, limit=16384, room=ROOM):
        text = wrote(failed(condition, description)) if answer is None else answer
        case('e', [room, limit, 0 if description is None else 1], [condition, description or ''], text, source)

    not_found = ascii_text('amqp:not-found')
    case_error(not_found, None, form, wrote('00000024_02000000_005318_C01701_00531D_C01101_A30E' + not_found))
    case_error(not_found, ascii_text('Session is not found'), form, limit=512)
    for description in ('', '61', 'C3A9', '61*255'):
        case_error(not_found, description, form + ': description')
    for condition in ('', '61', '7F', '61*255'):
        case_error(condition, None, form + ': condition')
    case_error('61*255', '62*255', form)
    for n in (246, 247, 252, 253):
        case_error('61*%d' % n, None, form + ': the shortest list')
    beyond = 'document 01, error text beyond its limit'
    case_error('61*256', None, beyond, 'refused 8')
    case_error('61', '61*256', beyond, 'refused 8')
    for condition in ('80', 'C3A9', '61FF'):
        case_error(condition, None, 'document 01, a condition that is not ASCII', 'refused 8')
    for description in ('FF', 'C3', 'F4908080'):
        case_error('61', description, 'document 01, a description that is not UTF-8', 'refused 8')
    text = failed(not_found, '61*20')
    case_error(not_found, '61*20', 'document 01, frame over the writing limit', limit=size(text))
    case_error(not_found, '61*20', 'document 01, frame over the writing limit', 'refused 27', limit=size(text) - 1)
    case_error('61*255', '62*255', 'document 01, frame over the writing limit', 'refused 27', limit=512)
    case_error(not_found, None, room, 'refused 9', room=16383)
    case_error('80', None, 'document 01, 9 before 8', 'refused 9', room=16383)
    case_error('80', None, 'document 01, 8 before 27', 'refused 8', limit=0)
    make_session_written()


def make_session_written():
    title('Session frames written')

    def case_session(text, answer, source, highest=7, limit=16384, room=ROOM):
        case('w', [room, limit, highest], [text], answer, source)

    def rewritten(code, fields, source, channel=3, payload='', forms=('80', list32)):
        """Fields as pairs, as they are lent and as they are written."""
        fields = [f if isinstance(f, tuple) else (f, f) for f in fields]
        lent = [f[0] for f in fields]
        descriptor = '80' + number(code, 8) if forms[0] == '80' else '53' + number(code, 1)
        text = frame(channel, performative(code, lent, forms[1], descriptor), payload)
        case_session(text, wrote(frame(channel, written([f[1] for f in fields], code), payload)), source)

    form = 'document 01, written form'
    for code, section, name, fields in PERFORMATIVES:
        if name not in SESSION:
            continue
        rewritten(code, fields, form + ': %s as it was' % name, forms=('53', list8))
        rewritten(code, fields, form + ': descriptor 53 and a short list for %s' % name)
        if name != 'begin':
            rewritten(code, [NULL] * len(fields), form + ': trailing nulls dropped, %s' % name)
    some = FIELDS['transfer'][2]
    rewritten(20, some[:3] + [NULL] * 4, form + ': trailing nulls dropped')
    rewritten(20, [NULL] * 4 + ['41'], form + ': nulls before another field stay')
    rewritten(20, [NULL] * 10 + ['41'], form + ': nulls before another field stay')
    rewritten(20, [], form + ', list 45')
    rewritten(20, [], form + ', list 45', forms=('53', list8))
    rewritten(20, some[:1], form + ': payload', payload='00_5375_A003_010203')
    rewritten(20, [], form + ': payload', payload='AB*300', forms=('53', None))
    rewritten(21, ['7000000000', '5200', '8000000000_00000001', 'B000000000', 'D0_00000004_00000000', '5601'], 'document 01, a field without a checked type is copied')
    rewritten(18, [wide(0xB1, '61*300'), '43'], form + ': a list that needs D0')
    rewritten(18, [short(0xA1, '61*250'), '43', NULL], form + ': the longest list that C0 can have')
    rewritten(18, [short(0xA1, '61*251'), '43', NULL], form + ': a list that needs D0')
    rewritten(18, [NULL, described('5305', NULL)], form + ': a described null is not null')
    for channel in (0, 8, 255, 65535):
        rewritten(18, ['43'], form + ': on its channel', channel=channel)

    default = '70FFFFFFFF'
    ids = [('7000000000', '43'), ('70000000FF', '52FF'), ('7000000100', '7000000100')]
    source = form + ': shortest constructors of Begin'
    rewritten(17, ['600005'] + ids + [('7000000007', '5207')], source)
    rewritten(17, [NULL, ('5200', '43'), '5201', '43', ('70FFFFFFFE', '70FFFFFFFE')], source)
    rewritten(17, ['600000'] + ids + [('5200', '43'), NULL, symbol('b'), NULL], source)
    source = form + ': handle-max by default'
    text = frame(3, performative(17, ['600005'] + [f[0] for f in ids]))
    answer = wrote(frame(3, performative(17, ['600005'] + [f[1] for f in ids] + [default])))
    case_session(text, answer, source)
    rewritten(17, [NULL] + ids + [(NULL, default)], source)
    rewritten(17, [NULL] + ids + [(NULL, default), NULL, NULL, NULL], source)
    rewritten(17, [NULL] + ids + [(NULL, default), NULL, NULL, 'C10100'], source)

    condition = ascii_text(ERROR_TEXT)
    named = symbol(ERROR_TEXT)
    long_name = wide(0xB3, condition)
    errors = [
        (error([named]), error([named])),
        (error([long_name], '80' + number(29, 8), list32), error([named])),
        (error([named, NULL, NULL]), error([named])),
        (error([long_name, wide(0xB1, ascii_text('gone')), NULL], make=list32), error([named, wide(0xB1, ascii_text('gone'))])),
        (error([named, NULL, map32([symbol('k'), '7000000000'])]), error([named, NULL, map32([symbol('k'), '7000000000'])])),
        (error([wide(0xB3, '61*256')], make=list32), error([wide(0xB3, '61*256')], make=list32)),
        (error([wide(0xB3, '61*255')], make=list32), error([short(0xA3, '61*255')], make=list32)),
        (error([wide(0xB3, '61*252')], make=list32), error([short(0xA3, '61*252')])),
        (error([wide(0xB3, '')], make=list32), error([short(0xA3, '')])),
        (error([short(0xA3, 'FF')], make=list32), error([short(0xA3, 'FF')])),
    ]
    for i, pair in enumerate(errors):
        rewritten(23, [pair], form + ': the error of End')
        if i % 3 == 1:
            rewritten(22, ['7000000000', NULL, pair], form + ': the error of Detach')
    rewritten(22, ['7000000000', NULL, NULL], form + ': a null error is dropped')

    title('Session frames written: limits, room and refusals')
    text = frame(3, TRANSFER, 'AB*100')
    over = 'document 01, frame over the writing limit'
    case_session(text, wrote(text), over, limit=size(text))
    case_session(text, 'refused 27', over, limit=size(text) - 1)
    case_session(text, 'refused 27', over, limit=0)
    largest = frame(3, TRANSFER, 'AB*%d' % (16384 - 12))
    case_session(largest, wrote(largest), over, limit=16384)
    case_session(largest, 'refused 27', over, limit=16383)
    more = frame(3, TRANSFER, 'AB*%d' % (16385 - 12))
    case_session(more, 'refused 27', over, limit=16384)
    case_session(frame(3, TRANSFER, 'AB*20000'), 'refused 27', over, limit=16384)
    # the lent frame is over the limit and the written one is not, and the other way round
    text = frame(3, performative(18, [], list32, '80' + number(18, 8)))
    case_session(text, wrote(frame(3, ATTACH)), over, limit=12)
    text = frame(3, begin(None))
    grown = frame(3, performative(17, [NULL, '43', '52FF', '52FF', default]))
    case_session(text, 'refused 27', over, limit=size(text))
    case_session(text, wrote(grown), over, limit=size(grown))
    case_session(text, 'refused 27', over, limit=size(grown) - 1)

    room = 'document 01, lent output under 16,384 bytes'
    text = frame(3, ATTACH)
    for off, answer in ((0, wrote(text)), (1, wrote(text)), (-1, 'refused 9')):
        case_session(text, answer, room, room=ROOM + off)
    case_session(frame(3, TRANSFER, 'AB*20000'), 'refused 9', room, room=16383)
    case_session('', 'refused 1', 'document 01, frame under 4')
    case_session('', 'refused 9', room, room=16383)
    case_session(join(text, 'FFFF'), wrote(text), "document 01, a lone one's bytes past its length are not looked at")
    refusals = [
        ('000000', 1, 'frame under 4'), ('00000007', 3, 'length under 8'), (cut(text), 1, 'under its length'), (frame(3, ATTACH, type_=1), 5, 'type not 0 or doff not 2'),
        (frame(3, ATTACH, doff=3), 5, 'type not 0 or doff not 2'), (frame(3), 6, 'not a session performative'), (frame(3, plain('open')), 6, 'not a session performative'),
        (frame(3, CLOSE), 6, 'not a session performative'), (frame(3, ATTACH, '40'), 6, 'one written out must end with its body'), (frame(3, '005312_41'), 6, 'body malformed'),
        (frame(3, begin(8)), 7, "a written Begin's remote-channel"), (frame(3, begin(8), '00'), 6, 'for a written Begin 6 before 7'),
    ]
    for text, k, why in refusals:
        case_session(text, 'refused %d' % k, 'document 01, ' + why)
        case_session(text, 'refused %d' % k, 'document 01, %d before 27' % k, limit=0)
    for text, k, why in refusals[:3] + refusals[-2:]:
        case_session(text, 'refused 9', 'document 01, 9 before %d' % k, room=ROOM - 1)


HEAD = """\
# Cases for the codec, made by tests/make_cases.py from OASIS AMQP 1.0, RFC 3629 and documents 01 and 02:
#     python3 tests/make_cases.py > crates/cases/stdin
# A case is a letter, its numbers, its bytes, the answer after = and the source of that after the semicolon. src/main.rt says what each letter runs.
# Bytes are hexadecimal: _ parts them for the eye, 61*300 is the byte 61 three hundred times, - is none. A refusal has the number of document 01.
# Answers: amqp, other ID MAJOR MINOR REVISION; yes, no; end SIZE; empty CHANNEL SIZE BODY; frame CHANNEL SIZE BODY and a performative; frames COUNT; wrote BYTES.
# A performative: open MAX-FRAME-SIZE CHANNEL-MAX IDLE-TIME-OUT, begin REMOTE-CHANNEL, detach, end and close with error PLACE LENGTH of the condition, or none;
# and where it ends in the body."""


def main():
    make_headers()
    make_text()
    make_values()
    make_performatives()
    make_frames()
    make_session_frames()
    make_written()
    print(HEAD)
    print('\n'.join(LINES))


main()
