"""Journals that are refused, each with the line that the command says of it.

In a text, ^ marks the byte at which the refusal is: it is no byte of the text itself, and gives the line and the column.
"""

ONE = b"fabric=1 cores=2 lines=4 width=1 lease=10\n"
TWO = b"fabric=2 cores=2 lines=4 width=1 lease=10 cap=4\n"
PLAYED = ("list", "tally", "check")
WINDOWS = b"carriage return at the end of the line, as in a Windows file"
# What comes after a wrong line is not looked at.
AFTER = b"op=fence core=0\nop=wrong core=00\n"


def unmarked(text):
    """The text without its mark, and the line and the column of that."""
    before, after = text.split(b"^")
    return before + after, before.count(b"\n") + 1, len(before) - (before.rfind(b"\n") + 1) + 1


def case(subcommands, text, number, sentence):
    journal, line, column = unmarked(text)
    return subcommands, journal, b"%d:%d: %d: %s" % (line, column, number, sentence)


def steps(number, *pairs, form=ONE, of=PLAYED + ("to2",)):
    """Wrong step lines of a form, each a second line with a sentence."""
    return [case(of, form + b"op=fence core=1\n" + text + b"\n" + AFTER, number, sentence) for text, sentence in pairs]


def firsts(number, *pairs, of=PLAYED):
    """Wrong first lines."""
    return [case(of, text + b"\n" + AFTER, number, sentence) for text, sentence in pairs]


def no_step(*pairs, **options):
    return steps(11, *((text, b"not a step line: " + why) for text, why in pairs), **options)


def no_first(*pairs, **options):
    return firsts(11, *((text, b"not a first line: " + why) for text, why in pairs), **options)


def no_number(make, *pairs):
    return make(12, *((text, b"not a number: " + why) for text, why in pairs))


def no_data(*pairs):
    return steps(13, *((text, b"not data: " + why) for text, why in pairs))


def outside(*pairs, of=PLAYED):
    return firsts(7, *((text, b"outside the limits: " + why) for text, why in pairs), of=of)


def unlike(text, why):
    return case(("to1",), text, 32, b"not to be said in fabric=1: " + why)


# A step line of exactly 200 bytes, and a first line of as many.
STORE_200 = b"op=store core=0 line=0 data=".ljust(200, b"0")
FIRST_200 = b"fabric=1 cores=1 lines=1 width=1 lease=".ljust(200, b"1")
# A journal of exactly 65,536 bytes, which is right; its last line has 16 of them.
LIMIT = b"fabric=1 cores=1 lines=1 width=1 lease=10\nop=load core=0 line=0\n" + 4092 * b"op=fence core=0\n"
# A journal of fabric=2 whose result has over 65,536 bytes, since an evict is longer than a drop; the result of LIMIT has them by its cap.
DROPS = b"fabric=2 cores=1 lines=1 width=1 lease=10 cap=1\n" + 2976 * b"op=drop core=0 line=0\n"
# Journals of fabric=2 in which core 0 holds line 0, owned and shared.
OWNED = TWO + b"op=store core=0 line=0 data=07\nop=serve core=0\nop=receive core=0\n"
SHARED = TWO + b"op=load core=0 line=0\nop=serve core=0\nop=receive core=0\n"
UNSAID = b", which is refused with 30 here"

CASES = [
    # 10
    *steps(10, (STORE_200 + b"^0", b"a line of over 200 bytes"),
           (b"op=nothing  core=0".ljust(200) + b"^ and more of it", b"a line of over 200 bytes"),
           (FIRST_200 + b"^1", b"a line of over 200 bytes")),
    *firsts(10, (FIRST_200 + b"^1", b"a line of over 200 bytes"), of=PLAYED + ("to1", "to2")),
    case(PLAYED + ("to2",), ONE + b"op=take line=0^", 10, b"a last line without newline"),
    case(PLAYED + ("to2",), ONE + b"op=take line=00^", 10, b"a last line without newline"),
    case(PLAYED + ("to2",), ONE + b"x^", 10, b"a last line without newline"),
    case(PLAYED + ("to2",), ONE + STORE_200 + b"^0", 10, b"a line of over 200 bytes"),
    case(PLAYED + ("to2",), ONE + STORE_200 + b"^", 10, b"a last line without newline"),
    case(PLAYED + ("to1", "to2"), ONE.rstrip() + b"^", 10, b"a last line without newline"),
    case(PLAYED + ("to1", "to2"), b"\xff^", 10, b"a last line without newline"),

    # 11, the first line
    case(PLAYED + ("to1", "to2"), b"^", 11, b"the journal is empty"),
    *no_first(
        (b"^", b"empty line"),
        (b"^\r", b"empty line, but for a carriage return"),
        (b"^ fabric=1 cores=1 lines=1 width=1 lease=1", b"blank at its start"),
        (b"^\xef\xbb\xbffabric=1 cores=1 lines=1 width=1 lease=1", b"byte order mark at its start"),
        (b"^\xff\xfef\0a\0b\0r\0i\0c\0=\0001\0", b"byte order mark at its start"),
        (b"^\xfe\xff\0f\0a\0b\0r\0i\0c\0=\0001", b"byte order mark at its start"),
        of=PLAYED + ("to1", "to2")),
    *no_first(
        (b"^cores=1 lines=1 width=1 lease=1", b"fabric=1 or fabric=2 expected"),
        (b"fabric^", b"fabric=1 or fabric=2 expected"),
        (b"fabric=^", b"fabric=1 or fabric=2 expected"),
        (b"fabric=^3 cores=1 lines=1 width=1 lease=1 cap=1", b"fabric=1 or fabric=2 expected"),
        (b"fabric=^12 cores=1 lines=1 width=1 lease=1", b"fabric=1 or fabric=2 expected"),
        (b"fabric=^01 cores=1 lines=1 width=1 lease=1", b"fabric=1 or fabric=2 expected"),
        (b"fabric=^1\tcores=1 lines=1 width=1 lease=1", b"fabric=1 or fabric=2 expected"),
        (b"fab^Ric=1 cores=1 lines=1 width=1 lease=1", b"fabric=1 or fabric=2 expected"),
        (b"^op=load core=0 line=0", b"op=load is a step, fabric=1 or fabric=2 expected"),
        (b"^op=victim core=0", b"op=victim is a step, fabric=1 or fabric=2 expected"),
        (b"fabric=1^", b"cores= is missing"),
        (b"fabric=1 cores=1 ^width=1 lines=1 lease=1", b"lines= expected"),
        (b"fabric=1 cores=1 lines=1 width=1^", b"lease= is missing"),
        (b"fabric=2 cores=1 lines=1 width=1 lease=1^", b"cap= is missing"),
        (b"fabric=2 cores=1 lines=1 width=1 lease=01^", b"cap= is missing"),
        (b"fabric=1 cores=1 lines=1 width=1 lease=1^ cap=1", b"fabric=1 has no cap="),
        (b"fabric=1 cores=1 lines=1 width=1 lease=1^ core=1", b"fabric=1 has no core="),
        (b"fabric=1 cores=1 lines=1 width=1 lease=1^ lease=1", b"something after the last value"),
        (b"fabric=1 cores=1 lines=1 width=1 lease=1^ ", b"blank at its end"),
        (b"fabric=2 cores=1 lines=1 width=1 lease=1 cap=1^  ", b"blank at its end"),
        (b"fabric=1 ^ cores=1 lines=1 width=1 lease=1", b"double blank")),
    *no_first(
        (b"fabric=^1 cores=1 lines=1 width=1 lease=1", b"to1 converts fabric=2, not fabric=1"),
        (b"fabric=^1 cores=01 lines=1 width=1 lease=1", b"to1 converts fabric=2, not fabric=1"),
        (b"fabric=^1 cores=0 lines=1 width=1 lease=1", b"to1 converts fabric=2, not fabric=1"),
        (b"fabric=^1 cores=1", b"to1 converts fabric=2, not fabric=1"),
        (b"fabric=^3 cores=1 lines=1 width=1 lease=1", b"fabric=2 expected"),
        (b"^op=take line=0", b"op=take is a step, fabric=2 expected"), of=("to1",)),
    *no_first(
        (b"fabric=^2 cores=1 lines=1 width=1 lease=1 cap=1", b"to2 converts fabric=1, not fabric=2"),
        (b"fabric=^2 cores=1 lines=1 width=1 lease=1 cap=01", b"to2 converts fabric=1, not fabric=2"),
        (b"fabric=^2 cores=1 lines=1 width=1 lease=1", b"to2 converts fabric=1, not fabric=2"),
        (b"^abric=1 cores=1 lines=1 width=1 lease=1", b"fabric=1 expected"), of=("to2",)),

    # 11, a step line
    *no_step(
        (b"^", b"empty line"),
        (b"^\r", b"empty line, but for a carriage return"),
        (b"^ op=load core=0 line=0", b"blank at its start"),
        (b"^load core=0 line=0", b"op= expected"),
        (b"op^", b"op= expected"),
        (b"^OP=load core=0 line=0", b"op= expected"),
        (b"^# a remark", b"op= expected"),
        (b"op=^", b"no step after op="),
        (b"op=^ core=0 line=0", b"no step after op="),
        (b"op=^laod core=0 line=0", b'unknown step "laod"'),
        (b"op=^loads core=0 line=0", b'unknown step "loads"'),
        (b"op=^loa", b'unknown step "loa"'),
        (b"op=^check core=0", b'unknown step "check"'),
        (b"op=^Load core=0 line=0", b'unknown step "Load"'),
        (b"op=^take\r", b'unknown step "take\\x0d"'),
        (b'op=^"\\\xff\0', b'unknown step "\\x22\\x5c\\xff\\x00"'),
        (b"op=^load\tcore=0 line=0", b'unknown step "load\\x09core=0"'),
        (b"op=^abcdefghijklmnop core=0", b'unknown step "abcdefghijklmnop"'),
        (b"op=^abcdefghijklmnopq core=0", b'unknown step "abcdefghijklmnop"..'),
        (b"op=load^", b"core= is missing"),
        (b"op=load ^", b"core= is missing"),
        (b"op=load c^", b"core= is missing"),
        (b"op=load core^", b"core= is missing"),
        (b"op=load ^line=0", b"core= expected"),
        (b"op=load ^line=0 core=0", b"core= expected"),
        (b"op=load core^ =0 line=0", b"core= expected"),
        (b"op=load core^:0 line=0", b"core= expected"),
        (b"op=load core=0^", b"line= is missing"),
        (b"op=load core=0line=0^", b"line= is missing"),
        (b"op=load core=00^", b"line= is missing"),
        (b"op=load core=0 lin^a=0", b"line= expected"),
        (b"op=load core=0 ^Line=0", b"line= expected"),
        (b"op=load core=0 lin^", b"line= is missing"),
        (b"op=store core=0 line=0^", b"data= is missing"),
        (b"op=store core=0 line=0 dat^e=07", b"data= expected"),
        (b"op=advance core=0 b^e=1", b"by= expected"),
        (b"op=take ^core=0", b"line= expected"),
        (b"op=load ^ core=0 line=0", b"double blank"),
        (b"op=load core=0 ^ line=0", b"double blank"),
        (b"op=load core=0 ^ ", b"double blank"),
        (b"op=load core=0 line=0^ ", b"blank at its end"),
        (b"op=load core=0 line=0^   ", b"blank at its end"),
        (b"op=load core=0x line=0^ ", b"blank at its end"),
        (b"op=load core=0 line=0^ data=07", b"op=load has no data="),
        (b"op=take line=0^ core=0", b"op=take has no core="),
        (b"op=load core=0 line=0^ line=0", b"something after the last value"),
        (b"op=load core=0 line=0^ 0", b"something after the last value"),
        (b"op=load core=0 line=0^  data=07", b"something after the last value"),
        (b"op=load core=0 line=0^ \r", b"something after the last value"),
        (b"op=^drop core=0 line=0", b"op=drop is a step of fabric=2, not of fabric=1"),
        (b"op=^writeback core=0 line=00", b"op=writeback is a step of fabric=2, not of fabric=1"),
        (b"op=^victim", b"op=victim is a step of fabric=2, not of fabric=1"),
        (b"^fabric=1 cores=2 lines=4 width=1 lease=10", b"fabric=1 opens another journal"),
        (b"^fabric=2", b"fabric=2 opens another journal"),
        (b"^fabric=3", b"op= expected")),
    *no_step(
        (b"op=^evict core=0 line=0", b"op=evict is a step of fabric=1, not of fabric=2"),
        (b"op=^evict core=0 line=00", b"op=evict is a step of fabric=1, not of fabric=2"),
        (b"op=victim core=0^ line=0", b"op=victim has no line="),
        (b"op=drop core=0^", b"line= is missing"), form=TWO, of=PLAYED + ("to1",)),

    # 12
    *no_number(
        steps,
        (b"op=load core=^ line=0", b"no digits"),
        (b"op=load core=0 line=^", b"no digits"),
        (b"op=load core=^x line=0", b'"x" is no digit'),
        (b"op=load core=^-1 line=0", b'"-" is no digit'),
        (b"op=load core=^0x1 line=0", b'"x" is no digit'),
        (b"op=load core=^1.0 line=0", b'"." is no digit'),
        (b"op=load core=^1/ line=0", b'"/" is no digit'),
        (b"op=load core=^: line=0", b'":" is no digit'),
        (b"op=load core=^1\tline=0 line=0", b"tab is no digit"),
        (b"op=load core=^1\0 line=0", b"zero byte is no digit"),
        (b"op=load core=^1\r line=0", b"carriage return is no digit"),
        (b"op=load core=^1\xc2\xb2 line=0", b"byte 0xc2 is no digit"),
        (b'op=load core=^"1" line=0', b"byte 0x22 is no digit"),
        (b"op=load core=^1\\ line=0", b"byte 0x5c is no digit"),
        (b"op=load core=^00 line=0", b"leading zero"),
        (b"op=load core=0 line=^01", b"leading zero"),
        (b"op=load core=^00000000000 line=", b"leading zero"),
        (b"op=load core=^4294967296 line=0", b"above 4294967295"),
        (b"op=load core=4294967295 line=^5000000000", b"above 4294967295"),
        (b"op=load core=^42949672950 line=0", b"above 4294967295"),
        (b"op=load core=^99999999999999999999999999 line=0", b"above 4294967295"),
        (b"op=load core=^18446744073709551616 line=0", b"above 4294967295"),
        (b"op=load core=0 line=^0\r", WINDOWS),
        (b"op=fence core=^4294967295\r", WINDOWS),
        (b"op=load core=0 line=^00\r", b"carriage return is no digit"),
        (b"op=load core=0 line=^\r", b"carriage return is no digit"),
        (b"op=load core=0 line=^0\r\r", b"carriage return is no digit"),
        (b"op=load core=^00 line=0\r", b"leading zero"),
        (b"op=store core=0 line=^01 data=0G", b"leading zero"),
        (b"op=store core=^ line= data=", b"no digits"),
        (b"op=advance core=0 by=^007", b"leading zero"),
        (b"op=fence core=^a", b'"a" is no digit'),
        (b"op=serve core=^b", b'"b" is no digit'),
        (b"op=receive core=^c", b'"c" is no digit'),
        (b"op=yield line=^d", b'"d" is no digit'),
        (b"op=take line=^e", b'"e" is no digit'),
        (b"op=evict core=1 line=^f", b'"f" is no digit')),
    *steps(12, (b"op=drop core=0 line=^00", b"not a number: leading zero"), (b"op=writeback core=^ line=0", b"not a number: no digits"),
           (b"op=victim core=^x", b'not a number: "x" is no digit'), form=TWO, of=PLAYED + ("to1",)),
    *no_number(
        firsts,
        (b"fabric=1 cores=^ lines=0 width=1 lease=1", b"no digits"),
        (b"fabric=1 cores=99 lines=^01 width=1 lease=1", b"leading zero"),
        (b"fabric=1 cores=1 lines=1 width=^w lease=1", b'"w" is no digit'),
        (b"fabric=1 cores=1 lines=1 width=1 lease=^4294967296", b"above 4294967295"),
        (b"fabric=1 cores=1 lines=1 width=1 lease=^10\r", WINDOWS),
        (b"fabric=2 cores=1 lines=1 width=1 lease=1 cap=^1\r", WINDOWS),
        (b"fabric=2 cores=0 lines=0 width=0 lease=0 cap=^00", b"leading zero")),
    case(("to1",), b"fabric=2 cores=1 lines=1 width=1 lease=1 cap=^1\r\n", 12, b"not a number: " + WINDOWS),
    case(("to2",), b"fabric=1 cores=1 lines=^01 width=1 lease=1\n", 12, b"not a number: leading zero"),
    # the example of the request, at line 17
    case(PLAYED + ("to2",), ONE + 15 * b"op=fence core=0\n" + b"op=load core=10 line=^07\n", 12, b"not a number: leading zero"),

    # 13
    *no_data(
        (b"op=store core=0 line=0 data=^", b"empty"),
        (b"op=store core=0 line=0 data=^0", b"odd in count"),
        (b"op=store core=0 line=0 data=^abc", b"odd in count"),
        (b"op=store core=0 line=0 data=^0A", b'"A" at column 30 is upper case'),
        (b"op=store core=0 line=0 data=^0000F", b'"F" at column 33 is upper case'),
        (b"op=store core=0 line=0 data=^0G", b'"G" at column 30 is not 0-9 a-f'),
        (b"op=store core=0 line=0 data=^0g", b'"g" at column 30 is not 0-9 a-f'),
        (b"op=store core=0 line=0 data=^0x07", b'"x" at column 30 is not 0-9 a-f'),
        (b"op=store core=0 line=0 data=^`0", b'"`" at column 29 is not 0-9 a-f'),
        (b"op=store core=0 line=0 data=^0:", b'":" at column 30 is not 0-9 a-f'),
        (b"op=store core=0 line=0 data=^/0@", b'"/" at column 29 is not 0-9 a-f'),
        (b"op=store core=0 line=0 data=^0@", b'"@" at column 30 is not 0-9 a-f'),
        (b"op=store core=0 line=0 data=^07\t", b"tab at column 31 is not 0-9 a-f"),
        (b"op=store core=0 line=0 data=^07\r", WINDOWS),
        (b"op=store core=0 line=0 data=^7\r", b"carriage return at column 30 is not 0-9 a-f"),
        (b"op=store core=0 line=0 data=^\r", b"carriage return at column 29 is not 0-9 a-f"),
        (b"op=store core=15 line=63 data=^".ljust(200, b"a"), b"odd in count")),

    # 7
    *outside(
        (b"fabric=1 cores=^0 lines=1 width=1 lease=1", b"cores is 0, not 1 to 16"),
        (b"fabric=1 cores=^17 lines=0 width=1 lease=1", b"cores is 17, not 1 to 16"),
        (b"fabric=1 cores=16 lines=^0 width=0 lease=1", b"lines is 0, not 1 to 64"),
        (b"fabric=1 cores=1 lines=^65 width=1 lease=1", b"lines is 65, not 1 to 64"),
        (b"fabric=1 cores=1 lines=64 width=^0 lease=0", b"width is 0, not 1 to 64"),
        (b"fabric=1 cores=1 lines=1 width=^65 lease=1", b"width is 65, not 1 to 64"),
        (b"fabric=1 cores=1 lines=1 width=64 lease=^0", b"lease is 0, not 1 to 1000"),
        (b"fabric=1 cores=1 lines=1 width=1 lease=^1001", b"lease is 1001, not 1 to 1000"),
        (b"fabric=1 cores=^4294967295 lines=1 width=1 lease=1", b"cores is 4294967295, not 1 to 16"),
        (b"fabric=2 cores=16 lines=64 width=64 lease=1000 cap=^0", b"cap is 0, not 1 to 64, the number of lines"),
        (b"fabric=2 cores=16 lines=2 width=64 lease=1000 cap=^3", b"cap is 3, not 1 to 2, the number of lines"),
        (b"fabric=2 cores=1 lines=^65 width=1 lease=1 cap=65", b"lines is 65, not 1 to 64"),
        (b"fabric=2 cores=1 lines=^0 width=1 lease=1 cap=0", b"lines is 0, not 1 to 64")),
    # in a conversion, it comes after all lines
    case(("to2",), b"fabric=1 cores=^17 lines=1 width=1 lease=1\nop=fence core=0\n", 7, b"outside the limits: cores is 17, not 1 to 16"),
    case(("to1",), b"fabric=2 cores=1 lines=2 width=1 lease=1 cap=^3\nop=victim core=0\n", 7,
         b"outside the limits: cap is 3, not 1 to 2, the number of lines"),
    case(("to2",), b"fabric=1 cores=17 lines=1 width=1 lease=1\nop=fence core=^x\n", 12, b'not a number: "x" is no digit'),
    case(("to2",), b"fabric=1 cores=17 lines=1 width=1 lease=1\nop=fence core=0^", 10, b"a last line without newline"),
    case(("to1",), b"fabric=2 cores=17 lines=1 width=1 lease=1 cap=1\n" + STORE_200 + b"^0\n", 10, b"a line of over 200 bytes"),

    # 14
    case(PLAYED + ("to1", "to2"), LIMIT + b"^\n", 14, b"the journal has over 65536 bytes"),
    case(PLAYED + ("to1", "to2"), LIMIT + b"^o", 14, b"the journal has over 65536 bytes"),
    case(PLAYED + ("to1", "to2"), LIMIT[:-16] + b"op=fence core=00^\n", 14, b"the journal has over 65536 bytes"),
    case(PLAYED + ("to1", "to2"), 65536 * b"x" + b"^x", 14, b"the journal has over 65536 bytes"),
    (("to2",), LIMIT, b" 14: the result would have over 65536 bytes"),
    (("to1",), DROPS, b" 14: the result would have over 65536 bytes"),

    # 32
    unlike(b"fabric=2 cores=1 lines=2 width=1 lease=1 cap=^1\nop=victim core=0\n", b"cap is 1, not 2, the number of lines"),
    unlike(TWO + b"op=^victim core=0\n", b"op=victim"),
    unlike(TWO + b"op=drop core=0 line=0\nop=^victim core=9\nop=victim core=0\n", b"op=victim"),
    unlike(OWNED + b"op=^drop core=0 line=0\nop=victim core=0\n", b"op=drop" + UNSAID),
    unlike(SHARED + b"op=^writeback core=0 line=0\n", b"op=writeback" + UNSAID),
    unlike(OWNED + b"op=drop core=1 line=0\nop=writeback core=0 line=1\nop=^victim core=0\nop=drop core=0 line=0\n", b"op=victim"),
    unlike(SHARED + b"op=drop core=0 line=4\nop=drop core=0 line=1\nop=^writeback core=0 line=0\nop=victim core=0\n",
           b"op=writeback" + UNSAID),
    case(("to1",), OWNED + b"op=drop core=0 line=0\nop=take line=^00\n", 12, b"not a number: leading zero"),
]

# Journals that are right, also where steps of their runs are refused.
RIGHT = [
    ONE,
    TWO,
    ONE + STORE_200 + b"\n",
    b"fabric=1 cores=16 lines=64 width=64 lease=1000\nop=take line=4294967295\nop=load core=16 line=0\nop=advance core=0 by=0\n",
    b"fabric=2 cores=1 lines=64 width=1 lease=1 cap=1\nop=victim core=0\n",
    LIMIT,
]
