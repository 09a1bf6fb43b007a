"""For tests/tools/check: a program run, and what it did compared with what it should have done."""
import os
import subprocess
import sys
import tempfile

WORK = tempfile.TemporaryDirectory()
FAILED = []
TRIED = []


def expect(what, got, wanted):
    TRIED.append(what)
    if got != wanted:
        FAILED.append(what)
        print('%s: wanted\n  %r\ngot\n  %r' % (what, wanted, got), file=sys.stderr)


def run(words, given=b'', **more):
    """Status, standard output, standard error."""
    done = subprocess.run(words, input=given, capture_output=True, **more)
    return done.returncode, done.stdout, done.stderr.decode()


def stored(content, name='part'):
    path = os.path.join(WORK.name, name)
    with open(path, 'wb') as file:
        file.write(content)
    return path


def assemble(text):
    return run(['tools/assemble'], text.encode())


def explain(script, lines=None):
    """Status, standard output's lines, standard error with LINES for the file's name."""
    names = [stored(script, 'script')] + ([] if lines is None else [stored(lines.encode(), 'lines')])
    status, out, error = run(['tools/explain'] + names)
    return status, out.decode().splitlines(), error.replace(names[-1], 'LINES')
