"""For tests/tools/check: words that the tools do not have, files that cannot be read, streams that fail, and garbage. A tool ends
with status 0 only where it wrote all, says in one line what was wrong, and never shows its insides."""
import os
import random
import resource
import signal
import subprocess
import time

from texts import WHOLE, WHOLE_BYTES, WHOLE_LINES
from trial import expect, run, stored

ASSEMBLE, EXPLAIN = ['tools/assemble'], ['tools/explain', '-']

# How a tool is called, and what it says.
WORDS = [
    (['tools/assemble', '--binary'], 2, 'tools/assemble: no such option: --binary; --help says more\n'),
    (['tools/assemble', '-x', 'examples'], 2, 'tools/assemble: no such option: -x; --help says more\n'),
    (['tools/assemble', '-', '-'], 2, 'tools/assemble: standard input is named twice\n'),
    (['tools/assemble', '--', '-x'], 1, '-x: No such file or directory\n'),
    (['tools/assemble', 'no/such/file'], 1, 'no/such/file: No such file or directory\n'),
    (['tools/assemble', 'examples'], 1, 'examples: Is a directory\n'),
    (['tools/explain'], 2, 'tools/explain: tools/explain [--text] SCRIPT [LINES]; --help says more\n'),
    (['tools/explain', '-', '-'], 2, 'tools/explain: standard input is named twice\n'),
    (['tools/explain', 'a', 'b', 'c'], 2, 'tools/explain: tools/explain [--text] SCRIPT [LINES]; --help says more\n'),
    (['tools/explain', '--text'], 2, 'tools/explain: tools/explain [--text] SCRIPT [LINES]; --help says more\n'),
    (['tools/explain', '--', '--text'], 1, '--text: No such file or directory\n'),
    (['tools/assemble', '--text', '-'], 2, 'tools/assemble: no such option: --text; --help says more\n'),
    (['tools/explain', '--lines'], 2, 'tools/explain: no such option: --lines; --help says more\n'),
    (['tools/explain', 'no/such/file'], 1, 'no/such/file: No such file or directory\n'),
    (['tools/explain', '-', 'examples'], 1, 'examples: Is a directory\n'),
]

# Bytes for tools/assemble that are no plain text, and what becomes of them.
BYTES = [
    (b'\xef\xbb\xbf' + WHOLE.encode(), (0, WHOLE_BYTES, '')),
    (b'\xef\xbb\xbfgo\n', (1, b'', '-:1:1: no such call: go\n')),
    (b'reset 0\n\xff\xfer\x00', (1, b'', '-:2:1: this is no UTF-8: ff\n')),
    (b'reset 0 # \xe4\n', (1, b'', '-:1:11: this is no UTF-8: e4\n')),
    (b'\xef\xbb\xbfreset \xc3', (1, b'', '-:1:7: this is no UTF-8: c3\n')),
    (b'reset 0\x00\n', (1, b'', '-:1:7: unit is no octal number, and no decimal one with a dot behind it: 0\\x00\n')),
]


def check_words():
    for words, status, error in WORDS:
        expect(' '.join(words), run(words, WHOLE.encode()), (status, b'', error))
    for data, wanted in BYTES:
        expect('assemble %r' % data, run(ASSEMBLE, data), wanted)
    for tool in ('tools/assemble', 'tools/explain'):
        status, out, error = run([tool, '--help'])
        expect('%s --help' % tool, (status, out.startswith(tool.encode()), error), (0, True, ''))


def cut_at(size):
    """In the program that is started: no file grows past a size, and the system says so by an error."""
    def limit():
        signal.signal(signal.SIGXFSZ, signal.SIG_IGN)
        resource.setrlimit(resource.RLIMIT_FSIZE, (size, size))
    return limit


def into(words, given, output, **more):
    """Status and standard error of a program that writes to a file."""
    done = subprocess.run(words, input=given, stdout=output, stderr=subprocess.PIPE, **more)
    return done.returncode, done.stderr.decode()


def check_streams():
    text, script = WHOLE.encode() * 5000, WHOLE_BYTES * 5000
    wanted = {'tools/assemble': script, 'tools/explain': run(EXPLAIN, script)[1]}
    for words, given in ((ASSEMBLE, text), (EXPLAIN, script)):
        tool = words[0]
        says = lambda reason: (1, '%s: standard output: %s\n' % (tool, reason))
        for unbuffered in ('', '1'):
            environment = dict(os.environ, PYTHONUNBUFFERED=unbuffered)
            with open('/dev/full', 'wb') as full:
                expect('%s, full' % tool, into(words, given, full, env=environment), says('No space left on device'))
            path = stored(b'', 'cut')
            with open(path, 'wb') as file:
                expect('%s, at a limit' % tool, into(words, given, file, env=environment, preexec_fn=cut_at(100000)), says('File too large'))
            with open(path, 'rb') as file:
                expect('%s, up to the limit' % tool, file.read(), wanted[tool][:100000])
        expect('%s, closed' % tool, into(words, given, None, preexec_fn=lambda: os.close(1)), says('Bad file descriptor'))
        expect('%s, no input' % tool, run(words, preexec_fn=lambda: os.close(0)), (1, b'', '-: Bad file descriptor\n'))
        expect('%s, no standard error' % tool, run(words + ['no/such/file'], preexec_fn=lambda: os.close(2))[:2], (1, b''))
        ending, begun = os.pipe()
        os.close(ending)
        expect('%s, nobody reads' % tool, into(words, given, begun), says('Broken pipe'))
        os.close(begun)
        expect('%s, read slowly' % tool, slowly(words, given), (0, wanted[tool], b''))


def slowly(words, given):
    """Status, standard output and standard error of a program whose pipe is non-blocking, read slowly."""
    ending, begun = os.pipe()
    os.set_blocking(begun, False)
    program = subprocess.Popen([words[0], stored(given, 'given')], stdout=begun, stderr=subprocess.PIPE)
    os.close(begun)
    parts = [b'first']
    while parts[-1]:
        time.sleep(0.001)
        parts.append(os.read(ending, 30000))
    os.close(ending)
    return program.wait(), b''.join(parts[1:]), program.stderr.read()


def check_garbage():
    """Whatever bytes come in, a tool ends with status 0 or with one line that is none of its insides."""
    dice = random.Random(7)
    good = [WHOLE.encode(), WHOLE_BYTES, WHOLE_LINES.encode()]
    for turn in range(60):
        data = bytearray(good[turn % 3])
        for _ in range(1 + turn % 5):
            data[dice.randrange(len(data))] = dice.randrange(256)
        words, given = [(ASSEMBLE, bytes(data)), (EXPLAIN, bytes(data)), (EXPLAIN + [stored(data, 'garbage')], WHOLE_BYTES)][turn % 3]
        status, _, error = run(words, given)
        expect('%s on %r' % (words[0], bytes(data)), (status in (0, 1), error.count('\n'), 'Traceback' in error), (True, status, False))
