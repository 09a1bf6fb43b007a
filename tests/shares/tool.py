#!/usr/bin/env python3
"""tests/shares/tool.py ASK..     tools/shares against the archive, which ASK is run to ask (tests/shares/ask.c): the list of every load, its
picture, its refusals, and its script, which the second program runs, and the script program where it is built: it finds addresses in the
silo, every write is answered 0, and the slices go round the list. The last word of ASK is the program, those before it an emulator."""
import os
import random
import subprocess
import sys
import tempfile

sys.dont_write_bytecode = True
os.chdir(os.path.join(os.path.dirname(os.path.abspath(__file__)), '..', '..'))
sys.path.insert(0, 'tools')
from share_plan import arranged, is_list, largest_gap, plan

LOADS = [[(1, 10), (2, 5), (3, 5)], [(1, 10), (2, 10), (3, 1)], [(1, 10), (2, 10)], [(1, 11), (2, 10)], [(1, 20)], [(1, 25), (2, 24), (3, 1)],
         [(7, 0), (1, 10), (2, 10)], [(32, 10), (1, 10)], [(0, 10), (1, 10)], [(1, 5), (2, 10), (1, 5)], [(1, 9), (2, 10)], [(1, 25), (2, 26)],
         [(address, 1) for address in range(1, 32)]]

FOUND = 3       # addresses that the script finds in the silo: equal neighbours, which would not start
LINK = os.environ.get('PCL_LINK', 'target/bin/link')


def fail(what):
    sys.exit('tests/shares/tool.py: %s' % what)


def run(words, given=b''):
    done = subprocess.run(words, input=given, capture_output=True)
    return done.returncode, done.stdout, done.stderr.decode()


def some_load(dice):
    addresses = dice.sample(range(1, 32), dice.randrange(2, 32))
    total, turns = dice.randrange(18, 54), {address: 0 for address in addresses}
    for _ in range(total):
        turns[dice.choice(addresses[:dice.randrange(1, len(addresses) + 1)])] += 1
    return list(turns.items())


def check_lists(ask, loads):
    """The tool's plan is the archive's, and a list that it could fall back on is one that is asked for."""
    text = '\n'.join(' '.join('%d %d' % share for share in load) for load in loads) + '\n'
    lines = run(ask, text.encode())[1].decode().splitlines()
    if len(lines) != len(loads):
        fail('the archive answered %d of %d loads' % (len(lines), len(loads)))
    for load, line in zip(loads, lines):
        number, places = plan(load)
        if [number] + places != [int(word) for word in line.split()]:
            fail('%r: %r, and the archive answers %s' % (load, (number, places), line))
        if number == 0 and not (is_list(load, places) and is_list(load, arranged(load))):
            fail('%r: no list that is asked for' % load)


def check_text(loads, programs):
    """What the tool prints: comments that say the list, and a script that loads it."""
    for load in loads:
        number, places = plan(load)
        words = ['%d=%d' % share for share in load]
        status, out, error = run(['tools/shares', '--unit', '1'] + words)
        if number:
            if (status, out) != (1, b'') or not error.startswith('tools/shares: ') or error.count('\n') != 1:
                fail('%s: %r' % (' '.join(words), (status, out, error)))
            continue
        lines = out.decode().splitlines()
        if status or error or lines[0] != '# ' + ' '.join(words) or lines[1] != '# %d addresses: %s' % (len(places), ' '.join(map(str, places))):
            fail('%s: %r' % (' '.join(words), (status, lines[:2], error)))
        for (address, turns), line in zip(load, lines[3:]):
            marks = ''.join('#' if there == address else '.' for there in places)
            wait = 'at most %d' % largest_gap(places, address) if turns else 'no turns'
            if not line.startswith('# %2d  %s  ' % (address, marks)) or not line.endswith(wait):
                fail('%s: the picture has %s' % (' '.join(words), line))
        script = b'fit 2  1 1 2  2 2 2\n' + b'byte 1. TMMR 5.\n' * FOUND + out + b'slice\n' * (2 * len(places) + 1)
        status, records, error = run(['tools/assemble'], script)
        if status or error:
            fail('%s: the script is refused: %s' % (' '.join(words), error))
        served = ['4 0 %d 0 0' % places[k % len(places)] for k in range(2 * len(places) + 1)]
        for program in programs:
            answers = run(program, records)[1].decode().splitlines()
            if answers != ['1 0'] + ['8 0'] * (FOUND + len(places) + 2) + served:
                fail('%s: the script answers %r, run by %s' % (' '.join(words), answers, program[-1]))


# How the tool is called, and what it says.
WORDS = [
    ([], 2, 'tools/shares: tools/shares [--unit UNIT] ADDRESS=TURNS ..; --help says more\n'),
    (['--unit', '1'], 2, 'tools/shares: tools/shares [--unit UNIT] ADDRESS=TURNS ..; --help says more\n'),
    (['1'], 2, 'tools/shares: ADDRESS=TURNS is asked: 1; --help says more\n'),
    (['1=x'], 2, 'tools/shares: turns is no decimal number: x; --help says more\n'),
    (['=2'], 2, 'tools/shares: address is no decimal number: ; --help says more\n'),
    (['1=-2'], 2, 'tools/shares: turns is no decimal number: -2; --help says more\n'),
    (['--list', '1=2'], 2, 'tools/shares: no such option: --list; --help says more\n'),
    (['1=20', '--unit'], 2, 'tools/shares: no such option: --unit; --help says more\n'),
    (['--unit', '16', '1=20'], 2, 'tools/shares: unit is above 15: 16; --help says more\n'),
    (['1=10', '32=10', '32=1'], 1, 'tools/shares: address outside 1 to 31: 32\n'),
    (['1=10', '2=10', '1=1'], 1, 'tools/shares: address named twice: 1\n'),
    (['1=10', '2=9'], 1, 'tools/shares: total outside 20 to 50: 19\n'),
    (['1=10', '2=11'], 1, 'tools/shares: no such list: address 2 wants 11 of 21 turns, which is more than half\n'),
]


def check_words():
    for words, status, said in WORDS:
        got = run(['tools/shares'] + words)
        if got != (status, b'', said):
            fail('%r: %r' % (words, got))
    if run(['tools/shares', '--help'])[0] or b'a picture of who speaks when' not in run(['tools/shares', '-h'])[1]:
        fail('no help')
    with open('/dev/full', 'wb') as full:
        done = subprocess.run(['tools/shares', '1=10', '2=10'], stdout=full, stderr=subprocess.PIPE)
    if done.returncode != 1 or b'standard output' not in done.stderr:
        fail('a lost text is not said: %r' % done)


def main():
    dice = random.Random(5)
    loads = LOADS + [some_load(dice) for _ in range(1500)]
    check_lists(sys.argv[1:], loads)
    with tempfile.TemporaryDirectory() as work:
        second = os.path.join(work, 'second_link')
        if run(['cc', '-std=c11', '-O2', '-o', second, 'tests/second/script.c', 'tests/second/second.c'])[0]:
            fail('the second program is not built')
        programs = [[second]] + ([sys.argv[1:-1] + [LINK]] if os.path.exists(LINK) else [])
        check_text(loads[:60], programs)
    check_words()
    print('tool: %d loads as the archive has them, %d of them run as scripts by %d programs' % (len(loads), 60, len(programs)))


main()
