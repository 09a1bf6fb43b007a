"""For tests/tools/check: what tools/explain tells of channels, from the lines of a run alone, against what both ends hold in the second
library: scripts that lead into deep states, and the kept cases of tests/fuzz."""
import os
import sys

from trial import WORK, assemble, expect, explain, run

sys.path.insert(0, os.path.join(os.path.dirname(os.path.abspath(__file__)), '..', '..', 'tools'))
from script_channels import DELIVERED, TRUNCATED, UNENDED, UNTOLD, Run

NAMES = {'delivered': DELIVERED, 'truncated': TRUNCATED, 'unended': UNENDED}


def built(name, *sources):
    path = os.path.join(WORK.name, name)
    words = ['cc', '-std=c11', '-O2', '-DSECOND_COUNT', '-Iinclude', '-Itests/c', '-Itests/second', '-o', path]
    expect('build %s' % name, run(words + list(sources) + ['tests/second/second.c'])[0], 0)
    return path


def records(script):
    """The records of a script up to where it stops; the second program tells how many there are."""
    at = 0
    while at < len(script):
        end = at + 2 + int.from_bytes(script[at:at + 2], 'little')
        yield int.from_bytes(script[at + 2:at + 4], 'little'), script[at + 4:end], end
        at = end


def told_by_lines(script, lines):
    """The run; whether each slice answered 0 is idle; and how much of the script was performed."""
    so_far, idle, performed = Run(), [], 0
    for (kind, body, end), line in zip(records(script), lines):
        if line == 'stop':
            break
        numbers = [int(word) for word in line.split()][1:]
        said = so_far.take(kind, body, numbers)
        if kind == 4 and numbers[0] == 0:
            idle.append(said[0])
        performed = end
    so_far.summary()
    return so_far, idle, performed


def held_by_ends(channels, script):
    """For each end the pairs with their counts, and whether each slice is idle."""
    carried, idle = {end: {} for end in NAMES.values()}, []
    for line in run([channels], script)[1].decode().splitlines():
        how, *numbers = line.split()
        if how in NAMES:
            sender, receiver, words, slices = map(int, numbers)
            counts = carried[NAMES[how]].get((sender, receiver), (0, 0, 0))
            carried[NAMES[how]][sender, receiver] = counts[0] + 1, counts[1] + words, counts[2] + slices
        else:
            idle.append(how == 'idle')
    return carried, idle


def without_slices(carried):
    """Of channels that did not end with success the slices are not told."""
    return {end: {pair: counts[:2] if end == UNENDED else counts for pair, counts in pairs.items()} for end, pairs in carried.items()}


def same_as_held(second, channels, folder):
    """The scripts of a folder: what the lines tell is what is held, and no slice is called idle that is not."""
    for name in sorted(os.listdir(folder)):
        with open(os.path.join(folder, name), 'rb') as file:
            script = file.read()
        told, idle, performed = told_by_lines(script, run([second], script)[1].decode().splitlines())
        carried, truly = held_by_ends(channels, script[:performed])
        expect('untold of %s' % name, told.carried.pop(UNTOLD), {})
        expect('channels of %s' % name, without_slices(told.carried), without_slices(carried))
        expect('idle slices of %s' % name, [k for k, said in enumerate(idle) if said and not truly[k]], [])


def sent_words(count):
    """Words of unit 0 to unit 1, one by one, and the slices of both units; the receiver's host reads each."""
    return ['write 0 TSDB 7', 'slice', 'slice', 'read 1 RDDB'] * count


# Scripts of unit 0, with address 1, and unit 1, with address 2, which receives; and what is told of them at the end.
BEGIN = ['fit 2  1 1 2  2 2 2', 'byte 0 TMMR+1 21', 'write 1 RCR 20001', 'write 0 TSDB 7', 'write 0 TSDB 7', 'write 0 TCR 21001']
OWED = ['slice', 'slice', 'write 0 TCR 1000', 'write 1 RCR 120001', 'slice', 'slice']
REJECTED_BY_A_MOVE = ['write 1 RCR 160001', 'move 1 R', 'slice', 'slice']
SENT_AGAIN = ['write 1 RSR 0', 'write 1 RCR 20001', 'read 1 RDDB', 'write 0 TSR 0', 'write 0 TCR 21001',
              'slice', 'slice', 'read 1 RDDB', 'slice', 'slice', 'slice', 'slice']
ENDED = [
    ('nothing', BEGIN[:3] + ['slice'], 'delivered: nothing; 1 slice with a master in the run, 1 idle'),
    ('no master', BEGIN[:1] + ['slice'], 'delivered: nothing; 0 slices with a master in the run, 0 idle'),
    ('on the way', BEGIN + ['slice', 'slice'], 'delivered: nothing; accepted without the end of a message: 1 word from unit 0 to unit 1; '
     '2 slices with a master in the run, 1 idle'),
    ('two of one', ['fit 1  1 3 2', 'byte 0 TMMR+1 21'] + ['write 0 RCR 20001', 'write 0 TSDB 7', 'write 0 TCR 21401', 'slice', 'slice',
     'read 0 RDDB', 'slice', 'slice', 'slice', 'slice'] * 2,
     'delivered: 2 words in 2 messages from unit 0 to unit 0 in 10 slices; 12 slices with a master in the run, 6 idle'),
    ('restarted', BEGIN + ['slice', 'slice', 'write 0 TCR 2'],
     'delivered: nothing; accepted without the end of a message: 1 word from unit 0 to unit 1; 2 slices with a master in the run, 1 idle'),
    ('rejected', BEGIN + ['slice', 'slice', 'write 1 RCR 100000'] + ['slice'] * 4,
     'delivered: nothing; accepted without the end of a message: 1 word from unit 0 to unit 1; 6 slices with a master in the run, 4 idle'),
    ('truncated', BEGIN + ['slice', 'slice', 'write 1 RCR 120001'] + ['slice'] * 6,
     'delivered: nothing; truncated: 1 word in 1 message from unit 0 to unit 1 in 7 slices; 8 slices with a master in the run, 4 idle'),
    ('REJ too late', BEGIN + ['slice'] * 6 + ['write 1 RCR 120001', 'slice', 'slice', 'read 1 RDDB', 'read 1 RDDB', 'slice', 'slice'],
     'delivered: 2 words in 1 message from unit 0 to unit 1 in 9 slices; 10 slices with a master in the run, 5 idle'),
    # A move sets BC OFL, whose request clears RCV DAT: REJ rejects, though it was written with RCV DAT.
    ('rejected in doubt', BEGIN + ['slice', 'slice'] + REJECTED_BY_A_MOVE + SENT_AGAIN,
     'delivered: 1 word in 1 message from unit 0 to unit 1 in 5 slices; accepted without the end of a message: 1 word from unit 0 to unit 1; '
     '10 slices with a master in the run, 5 idle'),
    ('rejected at a CRC', BEGIN + sent_words(127) + ['slice'] * 4 + REJECTED_BY_A_MOVE + SENT_AGAIN,
     'delivered: 1 word in 1 message from unit 0 to unit 1 in 5 slices; accepted without the end of a message: 128 words from unit 0 to unit 1; '
     '266 slices with a master in the run, 133 idle'),
    ('truncated after a CRC', BEGIN + sent_words(128) + OWED + ['write 0 TCR 21001'] + ['slice'] * 10,
     'delivered: nothing; truncated: 128 words in 1 message from unit 0 to unit 1 in 267 slices; 270 slices with a master in the run, 136 idle'),
    # A verdict is owed while the sender's host pauses and the receiver's sets REJ, and takes it back: the next 11 could be an opening.
    ('untold', BEGIN + sent_words(128) + OWED + ['write 1 RCR 20001', 'write 0 TCR 21001'] + ['slice', 'slice', 'read 1 RDDB'] * 5,
     'delivered: nothing; ended, with words that the lines do not tell: 1 message from unit 0 to unit 1 in 269 slices; '
     '270 slices with a master in the run, 135 idle'),
]


def check_channels():
    channels, second = built('channels', 'tests/tools/channels.c'), built('second_link', 'tests/second/script.c')
    folder = os.path.join(WORK.name, 'scripts.d')
    os.mkdir(folder)
    run([built('scripts', 'tests/compare/scripts.c'), folder, '12', '10000', '3'])
    expect('scripts', len(os.listdir(folder)), 12)
    expect('unpack', run(['tests/fuzz/unpack', folder])[0], 0)
    same_as_held(second, channels, folder)
    expect('a trace without its fit', explain(assemble('slice\nfit 1 1 1 2\nslice')[1], '4 0 2 0 0\n1 0\n4 0 2 0 0\n')[1], [
        'slice         # 4 0 2 0 0   done; address 2, A 00 off line or error, B 00 busy or off line', 'fit 1  1 1 2  # 1 0         done',
        'slice         # 4 0 2 0 0   done; address 2, idle: no transmitter has it',
        '# 1 slice before the first fit, of which nothing is told; delivered: nothing; 1 slice with a master after it, 1 idle'])
    for name, calls, wanted in ENDED:
        script = assemble('\n'.join(calls))[1]
        status, out, error = explain(script, run([second], script)[1].decode())
        expect('end of a run: %s' % name, (status, out[-1], error), (0, '# ' + wanted, ''))
