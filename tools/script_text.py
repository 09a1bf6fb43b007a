"""The text of a script: what tools/assemble makes records of, and tools/explain shows beside the lines of a run."""
import re

from script_form import FIT, FORMS, NAMES, REGISTERS, SIDES, SLICE
from script_io import Refused, contents, shown

WIDTHS = {1: 0o377, 2: 0o177777}


class Misread(Exception):
    """What is wrong in a line, and the word that is; without one, what should follow is missing."""

    def __init__(self, reason, word=None):
        super().__init__(reason)
        self.word = word


def upper(word):
    """A word by which a name may be meant. Letters that are none of the name's may become so in capitals."""
    return word.text.upper() if word.text.isascii() else word.text


class Word:
    """A word of a line, and the column of its first character."""

    def __init__(self, text, column):
        self.text, self.column = text, column


def number(word, what, most):
    base = 10 if word.text.endswith('.') else 8
    digits = word.text.removesuffix('.')
    if not digits or not set(digits) <= set('0123456789'[:base]):
        raise Misread('%s is no octal number, and no decimal one with a dot behind it: %s' % (what, shown(word.text)), word)
    value = int(digits.lstrip('0')[:7] or '0', base)        # seven digits are above all that is asked
    if value > most:
        raise Misread('%s is above %o: %s' % (what, most, shown(word.text)), word)
    return value


def register(word):
    name, plus, rest = upper(word).partition('+')
    if name not in REGISTERS:
        if name[:1].isdigit():
            return number(word, 'register', 0o377)
        raise Misread('no such register: %s' % shown(word.text), word)
    if plus and rest != '1':
        raise Misread('only +1, the high byte, may follow a register: %s' % shown(word.text), word)
    return REGISTERS[name] + len(plus)


def field(what, word, size):
    if what == 'register':
        return register(word)
    if what == 'side' and upper(word) in SIDES:
        return SIDES.index(upper(word))
    return number(word, what, WIDTHS[size])


def fit(words):
    if not words:
        raise Misread('fit has no count')
    count = number(words[0], 'count', 0o377)
    units = words[1:]
    if len(units) != 3 * count:
        raise Misread('fit %s takes %d. numbers after its count, not %d.' % (shown(words[0].text), 3 * count, len(units)),
                      units[3 * count] if len(units) > 3 * count else None)
    return bytes([count] + [number(word, 'address or switch', 0o377) for word in units])


def body(kind, words):
    if kind == FIT:
        return fit(words)
    form = FORMS[kind]
    if kind == SLICE and not words:
        return bytes(sum(size for _, size in form))
    if len(words) != len(form):
        raise Misread('%s takes %s' % (NAMES[kind - 1], ' '.join(what for what, _ in form)), (words[len(form):] or [None])[0])
    return b''.join(field(what, word, size).to_bytes(size, 'little') for (what, size), word in zip(form, words))


def record(line):
    words = [Word(found.group(), found.start() + 1) for found in re.finditer(r'\S+', line)]
    if not words:
        return b''
    name = upper(words[0]).lower()
    if name not in NAMES:
        raise Misread('no such call: %s' % shown(words[0].text), words[0])
    kind = NAMES.index(name) + 1
    said = kind.to_bytes(2, 'little') + body(kind, words[1:])
    return len(said).to_bytes(2, 'little') + said


def text_of(name):
    """A file's text. A mark of the byte order, which some editors put first, is no part of it."""
    data = contents(name)
    try:
        return data.decode('utf-8').removeprefix('\ufeff')
    except UnicodeDecodeError as reason:
        before = data[:reason.start].decode('utf-8').removeprefix('\ufeff')
        lines = re.split('\r\n|\r|\n', before)
        raise Refused('%s:%d:%d: this is no UTF-8: %s' % (shown(name), len(lines), len(lines[-1]) + 1, data[reason.start:reason.end].hex()))


def read_text(name):
    """Each line of a file: the record of its call, of no bytes where it has none, the whole line, and the comment after the call."""
    for at, line in enumerate(re.split('\r\n|\r|\n', text_of(name)), 1):
        said, _, comment = line.partition('#')
        try:
            yield record(said), line, comment.strip()
        except Misread as reason:
            column = reason.word.column if reason.word else len(said.rstrip()) + 1
            raise Refused('%s:%d:%d: %s' % (shown(name), at, column, reason))
