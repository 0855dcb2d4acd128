"""Where the refusal of a journal is, found in another way than command/place.c does: by regular expressions, and by trying ends of lines.
"""
import functools
import re

MOST_JOURNAL = 65536
MOST_LINE = 200
MOST_NUMBER = 4294967295

# The lines of each form; N is a number, H data. The limits of the first line's values, by their order; the cap's is the number of lines.
FIRST = {1: b"fabric=1 cores=N lines=N width=N lease=N", 2: b"fabric=2 cores=N lines=N width=N lease=N cap=N"}
LIMITS = (16, 64, 64, 1000)
BOTH = (b"op=load core=N line=N", b"op=store core=N line=N data=H", b"op=fence core=N", b"op=advance core=N by=N", b"op=serve core=N",
        b"op=receive core=N", b"op=yield line=N", b"op=take line=N")
STEPS = {1: BOTH + (b"op=evict core=N line=N",),
         2: BOTH + (b"op=drop core=N line=N", b"op=writeback core=N line=N", b"op=victim core=N")}

# What a journal is given to, and the forms of the journals that it takes.
USES = {"play": (1, 2), "to1": (2,), "to2": (1,)}


class Shape:
    """A line of the grammar: which lines have its shape, whatever their values are."""

    def __init__(self, text):
        self.kinds = re.findall(rb"=([NH])\b", text)
        self.word = text.split(b" ")[0]
        self.pattern = re.compile(re.sub(rb"=[NH]\b", rb"=([^ ]*)", text))
        right = re.sub(rb"=[NH]\b", rb"=00", text)
        self.ends = [right[at:] for at in range(len(right) + 1)]

    def starts_as(self, text):
        """Whether some line of this shape starts with the text."""
        return any(self.pattern.fullmatch(text + end) for end in self.ends)


FIRST = {form: Shape(text) for form, text in FIRST.items()}
STEPS = {form: tuple(Shape(text) for text in texts) for form, texts in STEPS.items()}


def is_number(text):
    return re.fullmatch(rb"0|[1-9][0-9]*", text) is not None and int(text) <= MOST_NUMBER


def is_data(text):
    return re.fullmatch(rb"([0-9a-f][0-9a-f])+", text) is not None


def first_that_cannot_be(line, shapes, start):
    """The column of the first byte with which no line of these shapes goes on. An unknown word after the start is wrong from its first byte
    on."""
    of_word = [shape for shape in shapes if shape.word == line.split(b" ")[0]]
    if line.startswith(start) and not of_word:
        return len(start) + 1
    can, cannot = 0, len(line) + 1
    while cannot - can > 1:
        middle = (can + cannot) // 2
        if any(shape.starts_as(line[:middle]) for shape in of_word or shapes):
            can = middle
        else:
            cannot = middle
    return cannot


@functools.lru_cache(maxsize=None)
def wrong_line(line, ended, shapes, start):
    """The number and the column of what is wrong with a line, or None."""
    if len(line) > MOST_LINE:
        return 10, MOST_LINE + 1
    if not ended:
        return 10, len(line) + 1
    found = [(shape, match) for shape in shapes for match in [shape.pattern.fullmatch(line)] if match]
    if not found:
        return 11, first_that_cannot_be(line, shapes, start)
    (shape, match), = found
    for number, kind, is_right in ((12, b"N", is_number), (13, b"H", is_data)):
        for at, of in enumerate(shape.kinds, 1):
            if of == kind and not is_right(match[at]):
                return number, match.start(at) + 1
    return None


def opening(line):
    """The form, the values and the columns of a right first line."""
    form, match = next((form, match) for form, shape in FIRST.items() for match in [shape.pattern.fullmatch(line)] if match)
    return form, [int(value) for value in match.groups()], [match.start(at) + 1 for at in range(1, match.re.groups + 1)]


def wrong_sizes(line):
    """The column of the first value of a right first line that lies outside its limits, or None."""
    form, values, columns = opening(line)
    limits = LIMITS + (values[1],)
    return next((column for value, most, column in zip(values, limits, columns) if not 1 <= value <= most), None)


def lines_of(journal):
    """The lines, each with whether it is ended."""
    return [(line.rstrip(b"\n"), line.endswith(b"\n")) for line in re.findall(rb"[^\n]*\n|[^\n]+", journal)]


def malformed(journal, use):
    """The number, line and column of the first malformed line, or None. Played, a first line outside the limits comes before all others."""
    lines = lines_of(journal)
    if not lines:
        return 11, 1, 1
    line, ended = lines[0]
    wrong = wrong_line(line, ended, tuple(FIRST[form] for form in USES[use]), b"fabric=")
    if wrong:
        return wrong[0], 1, wrong[1]
    if use == "play" and wrong_sizes(line):
        return 7, 1, wrong_sizes(line)
    form = opening(line)[0]
    for place, (line, ended) in enumerate(lines[1:], 2):
        wrong = wrong_line(line, ended, STEPS[form], b"op=")
        if wrong:
            return wrong[0], place, wrong[1]
    return None


def place(journal, use, first30):
    """The number, line and column of what refuses a journal; None where nothing but a result that is too long can. `first30` is the number
    of the first line that is refused with 30 when the journal is played, or 0."""
    if len(journal) > MOST_JOURNAL:
        before = journal[:MOST_JOURNAL]
        return 14, before.count(b"\n") + 1, MOST_JOURNAL - before.rfind(b"\n")
    found = malformed(journal, use)
    if found or use == "play":
        return found
    lines = [line for line, _ in lines_of(journal)]
    if wrong_sizes(lines[0]):
        return 7, 1, wrong_sizes(lines[0])
    form, values, columns = opening(lines[0])
    if use == "to1" and values[4] != values[1]:
        return 32, 1, columns[4]
    unlike = [at for at, line in enumerate(lines, 1) if line.startswith(b"op=victim ")] + [first30] * (first30 > 0)
    return (32, min(unlike), 4) if use == "to1" and unlike else None
