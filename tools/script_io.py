"""What tools/assemble and tools/explain share of reading and writing. Nothing is lost in silence: whatever fails is one line on
standard error, and the status is not 0. Status 0 says that every byte was written."""
import os
import select

INPUT, OUTPUT, ERROR = 0, 1, 2


class Refused(Exception):
    """What is wrong with a file, and where."""


class Unwritten(Exception):
    """Why standard output did not take what was to be written."""


class Misused(Exception):
    """Why a tool cannot be called so."""


def shown(text):
    """A text as a message has it: cut where it is long, and escaped where it cannot be printed."""
    cut = text if len(text) <= 40 else '%s.. (%d characters)' % (text[:40], len(text))
    return ''.join(c if c.isprintable() else c.encode('unicode_escape').decode() for c in cut)


def asked(words, usage, least, most, marks=()):
    """The files that a tool was called with, and those of its marks, as --text, that were given. Where the words ask for help there
    are no files, and the usage is written."""
    names, given, options = [], set(), True
    for word in words:
        if options and word == '--':
            options = False
        elif options and word in ('-h', '--help'):
            write_all(usage.encode())
            return None, given
        elif options and word in marks:
            given.add(word)
        elif options and word.startswith('-') and word != '-':
            raise Misused('no such option: %s; --help says more' % shown(word))
        else:
            names.append(word)
    if not least <= len(names) <= most:
        raise Misused('%s; --help says more' % usage.partition('     ')[0])
    if names.count('-') > 1:
        raise Misused('standard input is named twice')
    return names, given


def contents(name):
    """All bytes of a file; - is standard input."""
    try:
        file = INPUT if name == '-' else os.open(name, os.O_RDONLY)
        parts = []
        while not parts or parts[-1]:
            try:
                parts.append(os.read(file, 1 << 20))
            except BlockingIOError:
                select.select([file], [], [])
        if name != '-':
            os.close(file)
        return b''.join(parts)
    except (OSError, ValueError) as reason:
        raise Refused('%s: %s' % (shown(name), getattr(reason, 'strerror', None) or reason))


def write_all(data):
    """Writes every byte to standard output."""
    try:
        at = 0
        while at < len(data):
            try:
                at += os.write(OUTPUT, data[at:at + (1 << 20)])
            except BlockingIOError:
                select.select([], [OUTPUT], [])
    except OSError as reason:
        raise Unwritten(reason.strerror)


def say(text):
    try:
        os.write(ERROR, (text + '\n').encode('utf-8', 'backslashreplace'))
    except OSError:
        pass                    # there is nobody left to tell; the status says it


def run(tool, main):
    """Runs a tool, and ends with its status: 0 where it did all that it was asked, 1 where it refused or could not, 2 where it was
    called wrongly."""
    status = 1
    try:
        os.fstat(OUTPUT)        # a file that is opened below must not take the place of a standard output that is closed
        main()
        os.close(OUTPUT)        # some devices say only here that a write has failed
        status = 0
    except Refused as reason:
        say(str(reason))
    except Unwritten as reason:
        say('%s: standard output: %s' % (tool, reason))
    except OSError as reason:
        say('%s: standard output: %s' % (tool, reason.strerror))
    except Misused as reason:
        say('%s: %s' % (tool, reason))
        status = 2
    except KeyboardInterrupt:
        status = 130
    os._exit(status)            # nothing is buffered; what Python flushes on its way out it would not check
