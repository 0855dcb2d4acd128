"""Journals that are damaged in random ways, the same ones for the same seed."""
import random
import re

# Bytes that are put in or changed to.
BYTES = b"0123456789abcdefgzAFN =\n\r\t\0\xff\"'-+._/:"
# Values that are put in the place of others: each limit and what is just past it, and numbers and data that are none.
VALUES = (b"", b"0", b"00", b"01", b"1", b"2", b"3", b"16", b"17", b"64", b"65", b"1000", b"1001", b"4294967295", b"4294967296",
          b"99999999999", b"-1", b"+1", b"1e3", b"0x1", b"1.0", b"x", b"1 ", b" 1", b"07", b"7", b"0A", b"0g", b"abc", b"\xc2\xb2")
KINDS = (b"load", b"store", b"fence", b"evict", b"drop", b"writeback", b"victim", b"advance", b"serve", b"receive", b"yield", b"take", b"",
         b"loads", b"Load", b"check")
FIRSTS = (b"", b"fabric=1", b"fabric=2 cores=1 lines=1 width=1 lease=10", b"fabric=1 cores=1 lines=1 width=1 lease=10 cap=1",
          b"fabric=3 cores=1 lines=1 width=1 lease=10 cap=1", b"fabric=12 cores=1 lines=1 width=1 lease=10", b"op=take line=0",
          b"fabric=2 cores=2 lines=4 width=1 lease=10 cap=4", b"fabric=1 cores=2 lines=4 width=1 lease=10", b"\xef\xbb\xbffabric=1 cores=1")
KEYS = (b" core=", b" line=", b" data=", b" by=", b" cores=", b" lines=", b" cap=", b" lease", b" Line=", b"line=", b" x=")


def at_one(rng, journal, pattern, put):
    """Replaces one of the places where a pattern is found."""
    found = list(re.finditer(pattern, journal))
    if not found:
        return journal
    match = rng.choice(found)
    return journal[:match.start()] + put(match) + journal[match.end():]


def spliced(rng, journal, size, piece):
    """Puts a piece in the place of so many bytes, somewhere."""
    at = rng.randrange(len(journal) + 1)
    return journal[:at] + piece + journal[at + size:]


def long_line(rng, journal):
    """Makes a line as long as a line may be, or a little shorter or longer."""
    size, fill = rng.choice((199, 200, 201, 202, 300)), rng.choice((b"0", b"a", b" "))
    return at_one(rng, journal, rb"[^\n]+", lambda match: match[0].ljust(size, fill))


def long_journal(rng, journal):
    """Repeats the step lines until the journal has as many bytes as one may have, or a few more or fewer."""
    size = rng.choice((65530, 65536, 65537, 65600))
    first, _, steps = journal.partition(b"\n")
    whole = first + b"\n" + (steps or b"op=fence core=0\n") * 5000
    return whole[:size] if rng.random() < 0.3 else whole[:whole.rfind(b"\n", 0, size) + 1]


def moved_lines(rng, journal):
    """Takes a line away, doubles it or moves it."""
    lines = journal.splitlines(True)
    if not lines:
        return journal
    line = lines[rng.randrange(len(lines))]
    if rng.random() < 0.6:
        lines.remove(line)
    lines.insert(rng.randrange(len(lines) + 1), line)
    return b"".join(lines if rng.random() < 0.7 else lines[1:])


def windows(rng, journal):
    """Ends lines as Windows does: all of them or one."""
    return journal.replace(b"\n", b"\r\n") if rng.random() < 0.4 else at_one(rng, journal, rb"\n", lambda match: b"\r\n")


def other_form(rng, journal):
    """Makes a journal of fabric=1 one of fabric=2, with a cap of as many as lines. Its evictions may then be refused with 30."""
    whole = re.sub(rb"\Afabric=1 ([^\n]*lines=([0-9]+)[^\n]*)", rb"fabric=2 \1 cap=\2", journal)
    return whole.replace(b"op=evict", rng.choice((b"op=drop", b"op=writeback")))


def wrong_data(rng, journal):
    """Makes the data of a store upper case, a digit shorter, or something else."""
    return at_one(rng, journal, rb"(?<=data=)[^ \n]*", lambda match: rng.choice((match[0].upper(), match[0][1:], b"", b"0G", b"ab\t")))


def wrong_size(rng, journal):
    """Changes a value of the first line."""
    first, newline, steps = journal.partition(b"\n")
    return at_one(rng, first, rb"(?<==)[0-9]+", lambda match: rng.choice(VALUES)) + newline + steps


def wrong_first(rng, journal):
    """Puts another first line in the place of the one that there is."""
    return rng.choice(FIRSTS) + b"\n" + journal.partition(b"\n")[2]


def cut(rng, journal):
    """Cuts the journal off somewhere."""
    return journal[:rng.randrange(len(journal) + 1)]


def random_byte(size):
    """Puts a byte in the place of so many, somewhere."""
    return lambda rng, journal: spliced(rng, journal, size, bytes([rng.choice(BYTES)]))


def one_of(pattern, texts):
    """Puts one of the texts where a pattern is found."""
    return lambda rng, journal: at_one(rng, journal, pattern, lambda match: rng.choice(texts))


# Each way to damage a journal, with how often it is taken.
WAYS = (
    (4, cut),
    (4, lambda rng, journal: spliced(rng, journal, 1, b"")),
    (6, random_byte(0)),
    (6, random_byte(1)),
    (3, one_of(rb" ", (b"  ", b"", b"\t"))),
    (4, one_of(rb"(?<==)(?=[0-9])", (b"0",))),
    (8, one_of(rb"(?<==)[^ \n]*", VALUES)),
    (5, one_of(rb"(?<=op=)[^ \n]*", KINDS)),
    (4, one_of(rb" [a-z]+=", KEYS)),
    (3, one_of(rb"\n", (b"", b"\n\n", b" \n", b" data=00\n", b" line=0\n"))),
    (4, wrong_data),
    (4, wrong_size),
    (2, wrong_first),
    (2, windows),
    (3, long_line),
    (1, long_journal),
    (3, moved_lines),
    (5, other_form),
)


def damaged(count, seed, journals):
    """So many journals, each made of one of the given ones by one to three damages, or by none."""
    rng = random.Random(seed)
    ways = [way for often, way in WAYS for _ in range(often)]
    for _ in range(count):
        journal = rng.choice(journals)
        for _ in range(rng.choice((0, 1, 1, 1, 1, 1, 2, 2, 3))):
            journal = rng.choice(ways)(rng, journal)
        yield journal
