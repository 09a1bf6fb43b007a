"""For tools/explain: what the calls of a run and their answers tell of its channels: which slices are idle, and how many words went from
which unit to which, with what end.

A line has A and B of a slice. All else follows from the writes before it by document 01, with document 02, No. 1, in any run from a fit:

- A closed transmitter sends an opening word, A 10, or nothing, and 11 to that word opens it. So A 00 is idle where it is closed.
- What is sent with A 10 and answered 11 is a word; but after 128 of them it is the CRC. Both ends have the same count.
- An open transmitter is closed by A 00, by B 00 and B 10, by 11 with 11, which is success, by TX INIT, reset and fit, and by a rejection.
- A rejection and a truncation are answered 01, as much else is. Either needs REJ at the receiver. REJ rises by a write alone, and since a
  receiver opens only after a write of RCV WD, in the same byte, what was last written is what stands while it is open.
- It is a rejection where RCV DAT is clear, which is certain where it was last written so; else a request may have cleared it. What is sent
  next then tells: a truncated transmitter sends 11, or 00 with an error, and a rejected one anything but 11 and 01."""
from script_form import BYTE, FIT, REGISTERS, RESET, SLICE, WRITE

NOTHING, NULL, WORD, LAST = range(4)                    # A
OFF, WAIT, FAILED, TAKEN = range(4)                     # B
BLOCK = 128                                             # the words between two CRCs
INIT, DESTINATION = 2, 31                               # in the bytes of TCR
RECEIVES, REJECTS = 1, 128                              # in those of RCR

DELIVERED, TRUNCATED, UNENDED, UNTOLD = ENDS = [
    'delivered', 'truncated', 'accepted without the end of a message', 'ended, with words that the lines do not tell']


class Channel:
    """A transmitter's channel, from its opening word on."""

    def __init__(self, receiver, opened):
        self.receiver, self.opened = receiver, opened
        self.words = self.block = 1
        self.owed = False               # a due CRC was taken, and its verdict is owed
        self.ending = self.cut = False
        self.doubtful = False           # the slice before may have rejected it
        self.told = True                # the lines have told which words are of it


class Unit:
    """What the host of a fitted unit wrote last, and its transmitter's channel, where it may be open."""

    def __init__(self, transmitter, receiver):
        self.transmitter, self.receiver = transmitter, receiver
        self.channel = None
        self.destination = 0
        self.rejects = self.receives = False
        self.written = False            # the byte with REJ and RCV WD, since a doubtful slice


def counted(count, what):
    return '%d %s%s' % (count, what, '' if count == 1 else 's')


def carried_text(end, pair, messages, words, slices):
    """What one unit carried to another. That a channel was rejected may be known only some slices later, so of one that did not end with
    success there is no count of them."""
    parts = [counted(words, 'word')] * (end != UNTOLD) + [counted(messages, 'message')] * (end != UNENDED)
    return ' in '.join(parts) + ' from unit %o to unit %o' % pair + (' in ' + counted(slices, 'slice') if end != UNENDED else '')


class Run:
    """A run up to some call."""

    def __init__(self):
        self.units = []
        self.slices = self.idle = 0
        self.unfitted = 0               # slices before a fit: `link` has none, but a trace may begin in mid-run
        self.carried = {end: {} for end in ENDS}        # for a pair of units how many messages, words and slices

    def take(self, kind, body, numbers):
        """Takes in a call and its answer; what is to be said of a slice beside its codes, or, with True before it, in their place."""
        if numbers[0] != 0:
            return False, ''
        if kind == SLICE:
            return self.slice(*numbers[1:])
        if kind == FIT:
            self.fit(body)
        elif kind in (WRITE, BYTE, RESET) and body[0] < len(self.units):
            unit = self.units[body[0]]
            if kind == RESET:
                self.restart_transmitter(unit)
            else:
                self.write(unit, body[1], body[2:])
        return False, ''

    def fit(self, body):
        for unit in self.units:
            self.close(unit, UNENDED)
        self.units = [Unit(body[at], body[at + 1]) for at in range(1, len(body), 3)]

    def restart_transmitter(self, unit):
        self.close(unit, UNENDED)
        unit.destination = 0

    def write(self, unit, offset, written):
        """A host's write, of one byte or of two."""
        register = offset & ~1
        bytes_at = dict(enumerate(written, offset - register))
        low, high = bytes_at.get(0), bytes_at.get(1)
        if register == REGISTERS['TCR']:
            if low is not None and low & INIT:
                self.restart_transmitter(unit)
            elif high is not None:
                unit.destination = high & DESTINATION
        elif register == REGISTERS['RCR']:
            if low is not None:
                unit.receives = bool(low & RECEIVES)
            if high is not None:
                unit.rejects, unit.written = bool(high & REJECTS), True

    def close(self, unit, end):
        """The end of a channel, where there is one."""
        channel, unit.channel = unit.channel, None
        if channel:
            carried = self.carried[end]
            pair = self.units.index(unit), self.units.index(channel.receiver)
            messages, words, slices = carried.get(pair, (0, 0, 0))
            carried[pair] = messages + 1, words + channel.words, slices + self.slices - channel.opened + 1

    def slice(self, address, a, b):
        if not self.units:
            self.unfitted += 1
            return False, ''
        self.slices += 1
        unit = next((unit for unit in self.units if unit.transmitter == address), None)
        if unit and unit.channel and unit.channel.doubtful:
            self.settle(unit, a, b)
        if unit and unit.channel:
            return False, self.open_slice(unit, a, b)
        if a == NOTHING:
            self.idle += 1
            return True, 'idle' if unit else 'idle: no transmitter has it'
        receiver = next((other for other in self.units if unit and other.receiver == unit.destination), None)
        if receiver and (a, b) == (WORD, TAKEN):
            unit.channel = Channel(receiver, self.slices)
        return False, ''

    def settle(self, unit, a, b):
        """Whether the slice before rejected the channel, by what is sent now."""
        channel = unit.channel
        channel.doubtful = False
        if a == WORD and (channel.ending or b == OFF):
            self.close(unit, UNENDED)
        elif (a, b) == (WORD, TAKEN) and channel.receiver.written:
            channel.told = False        # the due CRC, found good; or the opening word of another channel

    def open_slice(self, unit, a, b):
        channel = unit.channel
        receiver = channel.receiver
        channel.ending |= a == LAST
        if a == NOTHING or b in (OFF, FAILED):
            self.close(unit, UNENDED)
        elif (a, b) == (LAST, TAKEN):
            return self.success(unit)
        elif (a, b) == (WORD, TAKEN):
            self.taken(channel)
        elif receiver.rejects:
            self.refused(unit, a)
        elif a == WORD and channel.block == BLOCK:
            channel.owed = True
        return ''

    def taken(self, channel):
        if channel.block == BLOCK:
            channel.block, channel.owed = 0, False
        else:
            channel.words += 1
            channel.block += 1

    def refused(self, unit, a):
        """B 01 with REJ standing. A due CRC whose verdict is owed would have had another answer, but for a rejection."""
        channel = unit.channel
        if not channel.receiver.receives or channel.owed and a == WORD:
            self.close(unit, UNENDED)
            return
        channel.doubtful, channel.receiver.written = True, False
        if not channel.ending and not channel.owed:
            channel.ending = channel.cut = True

    def success(self, unit):
        channel = unit.channel
        if not channel.told:
            self.close(unit, UNTOLD)
            return UNTOLD
        self.close(unit, TRUNCATED if channel.cut else DELIVERED)
        words = counted(channel.words, 'word')
        return 'truncated after ' + words if channel.cut else words + ' delivered'

    def summary(self):
        """What was carried in the whole run."""
        for unit in self.units:
            self.close(unit, UNENDED)
        said = ['%s before the first fit, of which nothing is told' % counted(self.unfitted, 'slice')] * (self.unfitted > 0)
        for end, carried in self.carried.items():
            pairs = [carried_text(end, pair, *counts) for pair, counts in sorted(carried.items())]
            if pairs or end == DELIVERED:
                said.append('%s: %s' % (end, ', '.join(pairs) or 'nothing'))
        return '; '.join(said + ['%s with a master %s, %d idle' % (
            counted(self.slices, 'slice'), 'after it' if self.unfitted else 'in the run', self.idle)])
