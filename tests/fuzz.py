#!/usr/bin/env python3
"""fuzz.py LINES SEED CHECKED INSPECT BEARERTRACE TRACEDETAIL: gives LINES random lines, made from the lines of
tests/vectors and samples, to the three programs, and judges their answers. tests/fuzz.sh, which calls it, says what
is checked. The same SEED gives the same lines. CHECKED more lines are given to the programs under valgrind."""
import collections
import contextlib
import os
import random
import re
import shutil
import subprocess
import sys
import tempfile
import textwrap
import threading
import time

# Leave no files next to the tests.
sys.dont_write_bytecode = True
import model  # noqa: E402

# The most seconds that a program may take for some thousand lines.
LIMIT = 30
# The most seconds spent on shortening an input that a program fails on.
NARROWING = 100
# From this many lines on, every kind of answer has to come up.
ENOUGH = 500000
INSPECT_BATCH = 2000

EDGES = (b"0", b"1", b"2", b"3", b"4", b"6", b"00", b"01", b"7", b"8", b"9", b"16", b"95", b"96", b"127", b"128",
         b"254", b"255", b"256", b"511", b"512", b"513", b"2047", b"2048", b"2049", b"65535", b"65536", b"65537",
         b"131072", b"4294967295", b"4294967296", b"18446744073709551615", b"18446744073709551616", b"9" * 40,
         b"1" + b"0" * 400, b"-1", b"+1", b"", b"-", b"1e3", b"0x10", b" 1", b"1 ")
ODD_OCTETS = b"\x00\x01\x09\x0a\x0b\x0d\x20\x2d\x2f\x30\x39\x3a\x40\x41\x46\x47\x5a\x61\x66\x67\x7f\x80\x81\xa0\xfe\xff"


# ---- random changes

def touch(rng, s):
    """s with one change somewhere."""
    if not s:
        return bytes([rng.choice(ODD_OCTETS)])
    i = rng.randrange(len(s))
    j = min(len(s), i + 1 + int(rng.expovariate(0.3)))
    k = rng.randrange(len(s))
    what = rng.randrange(9)
    if what == 0:
        return s[:i] + bytes([s[i] ^ 1 << rng.randrange(8)]) + s[i + 1:]
    if what == 1:
        return s[:i] + bytes([rng.choice(ODD_OCTETS)]) + s[i + 1:]
    if what == 2:
        return s[:i] + bytes([rng.randrange(256)]) + s[i:]
    if what == 3:
        return s[:i] + s[j:]
    if what == 4:
        return s[:j] + s[i:]
    if what == 5:
        return s[:i] + s[i:i + 1] * rng.randrange(2, 40) + s[i:]
    if what == 6:
        low, high = min(i, k), max(i, k)
        return s[:low] + s[high:high + 1] + s[low + 1:high] + s[low:low + 1] + s[high + 1:]
    if what == 7:
        return s[:i]
    return s[:i] + s[k:]


def touched(rng, s, most=3):
    for _ in range(rng.randint(1, most)):
        s = touch(rng, s)
    return s


def maybe(rng, chance, change, s):
    """change(s) with that chance, otherwise s."""
    return change(rng, s) if rng.random() < chance else s


def digits(rng, data):
    """The octets in digits of either case."""
    text = data.hex().encode()
    case = rng.randrange(3)
    if case == 0:
        return text
    if case == 1:
        return text.upper()
    k = rng.randrange(len(text) + 1)
    return text[:k].upper() + text[k:]


def shown(rng, data):
    """The octets as a field of inspect, `-` for none; sometimes with an odd number of digits."""
    text = digits(rng, data) or rng.choice((b"-", b"-", b"-", b""))
    return text[:-1] if rng.random() < 0.01 else text


def stretch(rng, line):
    """line, made about as long as a line may be, or far longer."""
    size = rng.choice((1200, 4096, 16384)) + rng.randrange(-4, 4)
    if rng.random() < 0.04:
        size = rng.choice((20000, 65535, 65536, 70000, 200000, 1000000))
    fill = rng.choice((b"00", b"0", b"aF", b"8", b" ", b"\t", b"\0", b"x", b"\xff", b"\r"))
    if rng.random() < 0.3:
        return (fill * size)[:size]
    return (line + fill * size)[:size]


def separate(rng, line):
    """line with other separators, or with octets that no line has."""
    what = rng.randrange(7)
    if what == 0:
        return line.replace(b" ", b"\t") if b" " in line else line.replace(b"\t", b" ")
    if what == 1:
        return line + rng.choice((b"\r", b" ", b"\t", b"\0", b"\x0b", b"\xa0"))
    if what == 2:
        return rng.choice((b" ", b"\t", b"\0", b"\xef\xbb\xbf", b"\r")) + line
    if what == 3:
        return line.replace(b" ", b"  ", 1).replace(b"\t", b"\t\t", 1)
    if what == 4:
        i = rng.randrange(len(line) + 1)
        return line[:i] + rng.choice((b"\0", b"\r", b"\t", b" ", b"\xc3\xa9", b"\xff", b"\x80")) + line[i:]
    if what == 5:
        return line.swapcase()
    return b""


def rearrange(rng, items, what):
    """Changes the list: two items are swapped (0), one is left out (1), or one is put in a second time (2)."""
    i, j = rng.randrange(len(items)), rng.randrange(len(items))
    if what == 0:
        items[i], items[j] = items[j], items[i]
    elif what == 1:
        del items[i]
    else:
        items.insert(i, items[j])


def refield(rng, line, separator):
    """line with its fields swapped, left out, doubled, or a number at the edge of a range."""
    fields = line.split(separator)
    what = rng.randrange(6)
    if what < 3:
        rearrange(rng, fields, what)
    else:
        numbers = [k for k in range(1, len(fields)) if len(fields[k]) < 6] or [rng.randrange(len(fields))]
        fields[rng.choice(numbers)] = rng.choice(EDGES)
    return separator.join(fields)


# ---- elements

def element(rng, ident, contents):
    """A whole element with these contents; its length is rarely wrong."""
    compat = rng.choice((0, 1, 2, 3, 4, 5, 6, 0x10, 0x20, 0x30, 0x50, 0x60, 0x7F, rng.randrange(128)))
    more = rng.randrange(1, 4) if rng.random() < 0.1 else 0
    front = bytes([compat] + [rng.randrange(128) for _ in range(more)])
    front = front[:-1] + bytes([front[-1] | 0x80])
    n = len(front) + len(contents)
    if rng.random() < 0.02:
        n = max(0, n + rng.choice((-1, 1, 128)))
    if n < 128 and rng.random() < 0.85:
        length = bytes([0x80 | n])
    else:
        length = bytes([n & 0x7F, 0x80 | rng.choice((0, 0, 0x10, 0x70)) | n >> 7 & 15])
    return bytes([ident]) + length + front + contents


def codec(rng):
    organisation = rng.choice((0, 1, 1, 1, 1, 2, 3))
    if organisation != 1:
        return bytes([organisation]) + rng.randbytes(rng.randrange(4))
    kind = rng.randrange(14)
    return bytes([1, kind]) + (b"" if rng.random() < 0.7 else rng.randbytes(rng.randrange(5)))


def contents_of(rng, ident):
    """Contents that an element of this identifier can have, or just misses."""
    octet = bytes([rng.choice((0, 1, 4, 5, 11, 12, 15, 16, 24, 25, 63, 64, 83, 84, 128, 255, rng.randrange(256)))])
    if ident == 4:
        inner = [element(rng, 5 if rng.random() < 0.97 else rng.randrange(256), codec(rng))
                 for _ in range(rng.randrange(7))]
        return maybe(rng, 0.1, touch, b"".join(inner))
    if ident == 5:
        return codec(rng)
    if ident == 6:
        return octet + rng.randbytes(3 * rng.randrange(5) + (rng.random() < 0.1))
    if ident == 10:
        n = rng.randrange(6)
        return bytes([n]) + rng.randbytes(max(0, n + rng.choice((-1, 0, 1, 1, 2, 9))))
    if ident == 11:
        inner = [element(rng, 14, contents_of(rng, 14))]
        inner += [element(rng, 15, rng.randbytes(2)) for _ in range(rng.choice((0, 0, 1, 1, 2)))]
        return maybe(rng, 0.15, touch, b"".join(inner[rng.random() < 0.05:]))
    if ident == 12:
        return bytes(rng.randrange(128) for _ in range(rng.choice((0, 0, 0, 1, 3)))) + bytes([0x80 | octet[0]])
    if ident == 13:
        return bytes(rng.randrange(13 if rng.random() < 0.05 else 12) for _ in range(rng.choice((0, 1, 2, 15, 16, 17))))
    sizes = {2: (0, 1, 2, 3, 4, 5), 3: (0, 1, 7, 19, 20, 21), 8: (0, 1, 2, 40, 300), 15: (1, 2, 2, 2, 3)}
    if ident in sizes:
        return rng.randbytes(rng.choice(sizes[ident]))
    return octet if rng.random() < 0.9 else rng.randbytes(rng.randrange(4))


def some_element(rng):
    ident = rng.randrange(1, 16) if rng.random() < 0.9 else rng.randrange(256)
    return element(rng, ident, maybe(rng, 0.15, touch, contents_of(rng, ident)))


def application_data(rng):
    """Elements one after the other, sometimes with about as many octets as allowed."""
    size = rng.random()
    if size < 0.006:
        return element(rng, rng.choice((2, 4, 6, 8, 10, 224)), rng.randbytes(2044 + rng.randrange(-6, 6)))
    if size < 0.012:
        return bytes((rng.randrange(256), 0x81, 0x80 | rng.randrange(128))) * rng.randrange(678, 686)
    count = 60 if size < 0.015 else rng.choice((0, 1, 1, 1, 2, 3, 4, 8, 17))
    return b"".join(some_element(rng) for _ in range(count))


def reframed(rng, data):
    """data with the contents of one element changed and its length corrected."""
    framed = model.frame_data(data)
    if isinstance(framed, str) or not framed:
        return touched(rng, data)
    start, length, ident, _, contents = rng.choice(framed)
    return data[:start] + element(rng, ident, touched(rng, contents)) + data[start + length:]


# ---- pairs of codec lists

def right_codec(rng):
    while True:
        contents = codec(rng)
        try:
            model.simple(5, contents)
            return contents
        except model.Wrong:
            pass


def codec_list(rng, known):
    """A list of some of these codecs, repeats among them; sometimes with about as many octets as allowed."""
    inner = b"".join(element(rng, 5, rng.choice(known)) for _ in range(rng.choice((1, 1, 2, 3, 5, 12))))
    if rng.random() < 0.02:
        inner += element(rng, 5, b"\0" + rng.randbytes(max(1, 2039 - len(inner) + rng.randrange(-6, 6))))
    return element(rng, 4, inner)


def long_list(rng):
    """A list of many different codecs."""
    known = [bytes([organisation, n]) for organisation in (0, 2) for n in range(256)]
    codecs = rng.sample(known, rng.choice((60, 200, 400, 408)))
    return element(rng, 4, b"".join(model.write_element(5, rng.randrange(128), contents) for contents in codecs))


def codec_lists(rng):
    """Two lists that may have codecs in common; sometimes one of them is something else."""
    known = [right_codec(rng) for _ in range(rng.choice((1, 3, 9)))]
    make = (lambda: long_list(rng)) if rng.random() < 0.02 else (lambda: codec_list(rng, known))
    lists = [make(), make()]
    if rng.random() < 0.15:
        i = rng.randrange(2)
        other = bytes([rng.randrange(16)]) + lists[i][1:]
        lists[i] = rng.choice((application_data(rng), element(rng, 4, contents_of(rng, 4)), other,
                               touch(rng, lists[i]), lists[i] + some_element(rng)))
    return lists


def relisted(rng, data):
    """A codec list with a codec moved, left out, doubled or changed."""
    framed = model.frame_data(data)
    read = None if isinstance(framed, str) else model.codec_list(framed)
    if read is None:
        return reframed(rng, data)
    inner = [contents for _, _, _, contents in read[1]]
    what = rng.randrange(4)
    if what < 3:
        rearrange(rng, inner, what)
    else:
        i = rng.randrange(len(inner))
        inner[i] = touch(rng, inner[i])
    return element(rng, 4, b"".join(element(rng, 5, contents) for contents in inner))


def match_line(rng):
    """Two lists and a buffer; its length is often about that of the reduced list."""
    lists, lead = codec_lists(rng), rng.choice((b"offered", b"own"))
    need = len(model.match(lead == b"own", 4096, *lists).split(" ")[-1]) // 2
    room = rng.choice((0, 8, 2048, 99999, need - 1, need, need + 1))
    return b"match %s %d %s %s" % (lead, room, shown(rng, lists[0]), shown(rng, lists[1]))


# ---- addresses and messages

def ipv4(rng):
    parts = [rng.randrange(256) for _ in range(4)]
    parts[0] = rng.choice((0, 1, 10, 127, 192, 223, 224, 255)) if rng.random() < 0.3 else rng.randrange(1, 224)
    return b"%d.%d.%d.%d" % tuple(parts)


def group(rng, value):
    text = b"%0*x" % (rng.choice((1, 1, 1, 2, 4)), value)
    return text.upper() if rng.random() < 0.3 else text


def ipv6(rng):
    """One of the texts of an address with some zeros in it."""
    values = [rng.choice((0, 0, 1, 0xDB8, 0xFFFF, rng.randrange(65536))) for _ in range(8)]
    values[0] = rng.choice((0, 0x2001, 0x2001, 0xFE80, 0xFF00, 0xFEFF))
    texts = [group(rng, v) for v in values]
    runs = [(i, j) for i in range(8) for j in range(i + 1, 9) if not any(values[i:j])]
    if not runs or rng.random() < 0.2:
        return b":".join(texts)
    i, j = rng.choice(runs)
    return b":".join(texts[:i]) + b"::" + b":".join(texts[j:])


def address(rng, family):
    text = ipv4(rng) if family == 4 else ipv6(rng)
    return maybe(rng, 0.05, touch, text)


Said = collections.namedtuple("Said", "kind version family address port media transport payload rtpmap fmtp ptime")


def some_said(rng):
    """What a message says, at random; each field is sometimes wrong."""
    family = rng.choice((4, 6))
    payload = rng.choice((0, 8, 18, 95, 96, 97, 127, 127, rng.randrange(128), rng.randrange(130)))
    rtpmap = rng.choice((None, None, b"AMR/8000", b"telephone-event/8000", b" x", b"n" * rng.randrange(232, 244)))
    fmtp = [rng.choice((b"", b"%d mode-set=%d" % (payload, i))) for i in range(rng.choice((0, 0, 0, 1, 2, 3)))]
    port = rng.choice((1, 4000, 6000, 65535, rng.randrange(1, 65536), rng.randrange(1, 65536)))
    said = Said(rng.choice((b"Request",) * 5 + (b"Accepted",) * 5 + (b"Confused", b"Rejected")),
                rng.choice((b"1",) * 12 + (b"0", b"2", b"255")), family, address(rng, family), b"%d" % port,
                rng.choice((b"audio", b"audio", b"image", b"\xe9")), rng.choice((b"RTP/AVP", b"RTP/AVP", b"udptl")),
                b"%d" % payload, rtpmap, fmtp, rng.choice((None, b"20", b"1", b"255")))
    wrong = (("kind", b"request"), ("version", b"256"), ("version", b"01"), ("port", b"0"), ("port", b"65536"),
             ("rtpmap", b""), ("fmtp", [b""] * 4), ("ptime", b"0"), ("ptime", b"256"), ("ptime", b"020"))
    return said._replace(**dict([rng.choice(wrong)])) if rng.random() < 0.15 else said


def message_lines(said):
    """The lines of a message that says this, in their order."""
    where = b"IN IP%d %s" % (said.family, said.address)
    lines = [b"v=0", b"o=- 0 0 " + where, b"s= ", b"c=" + where, b"t=0 0", b"a=ipbcp:%s %s" % (said.version, said.kind)]
    if said.kind in (b"Confused", b"Rejected"):
        return lines
    lines.append(b"m=%s %s %s %s" % (said.media, said.port, said.transport, said.payload))
    if said.rtpmap is not None:
        lines.append(b"a=rtpmap:%s %s" % (said.payload, said.rtpmap))
    lines += [b"a=fmtp:" + text for text in said.fmtp]
    if said.ptime is not None:
        lines.append(b"a=ptime:" + said.ptime)
    return lines


SKIPPED = (b"i=", b"u=x", b"e=a b", b"p=+1", b"b=AS:64", b"z=0 0", b"k=clear:x", b"r=1 2 3", b"a=", b"a=ptime",
           b"a=sendrecv", b"a=rtpmap", b"a=x:" + b"y" * 60)
WRONG = (b"x=1", b"a=ipbcp:1 Request", b"a=rtpmap:8 PCMA/8000", b"a=fmtp:", b"a=ptime:20", b"m=audio 1 RTP/AVP 8",
         b"v=0", b"V=0", b"=", b"", b"a", b"a=\0", b"s=\r", b"t=0 0 ", b"t=00 1", b"c=IN IP4 1.2.3.4")


def reline(rng, lines):
    """lines with one of them changed, moved, doubled, left out or added."""
    lines = list(lines)
    i = rng.randrange(len(lines))
    what = rng.randrange(8)
    if what < 3:
        rearrange(rng, lines, what)
    elif what == 3:
        lines[i] = touch(rng, lines[i])
    elif what == 4:
        lines[i] = refield(rng, lines[i], b" ")
    elif what == 5:
        lines.insert(i, rng.choice(WRONG))
    else:
        lines.insert(i, rng.choice(SKIPPED))
    return lines or [b"v=0"]


def joined(rng, lines):
    """The lines as one message, each with one of the two ends; sometimes about as long as a message may be."""
    end = rng.choice((b"\r\n", b"\r\n", b"\n"))
    text = b"".join(line + (end if rng.random() < 0.97 else b"\n") for line in lines)
    if rng.random() < 0.04:
        room = 512 + rng.randrange(-2, 3) - len(text) - len(end)
        text = b"i=" + b"z" * max(0, room - 2) + end + text
    return text


def some_message(rng, said=None):
    lines = message_lines(said or some_said(rng))
    for _ in range(rng.choice((0, 0, 0, 1, 1, 2))):
        lines = reline(rng, lines)
    return maybe(rng, 0.08, touched, joined(rng, lines))


def remessaged(rng, data):
    """A message changed at the level of its lines."""
    lines = data.replace(b"\r\n", b"\n").split(b"\n")[:-1] or [b"v=0"]
    for _ in range(rng.randint(1, 3)):
        lines = reline(rng, lines)
    return joined(rng, lines)


# ---- lines of inspect

def front(rng, mode):
    """The fields of this mode's line before its octets."""
    if mode == b"elements":
        return b"elements %d %s " % (rng.randrange(2), rng.choice((b"16", b"16", b"1", b"0", b"700", b"65536")))
    if mode == b"rewrite":
        return b"rewrite %d %d " % (rng.choice((2048, 16, 4, 0, 99999)), rng.choice((5, 255, 0, 256)))
    if mode == b"tunnel":
        return b"tunnel %d " % rng.choice((0, 1, 2, 3, 512))
    if mode == b"address":
        return b"address %d " % rng.choice((4, 6))
    return b"message "


def built(rng, _):
    """A line made from scratch, so that it gets far into the program."""
    mode = rng.choice((b"elements", b"elements", b"rewrite", b"match", b"tunnel", b"message", b"message", b"address"))
    if mode == b"match":
        return match_line(rng)
    if mode == b"elements":
        data = application_data(rng)
    elif mode == b"rewrite":
        data = some_element(rng) if rng.random() < 0.95 else application_data(rng)
    elif mode == b"tunnel":
        data = bytes([rng.choice((0x20, 0x20, 0x21, 0x3F, 0x60, 0xA0, 0)), rng.choice((32, 32, 33, 0, 96, 160))])
        data = maybe(rng, 0.1, touch, data + (some_message(rng) if rng.random() < 0.5 else b""))
    elif mode == b"message":
        data = some_message(rng)
    else:
        family = rng.choice((4, 6))
        return b"address %d %s" % (family, shown(rng, maybe(rng, 0.3, touch, address(rng, family))))
    return front(rng, mode) + shown(rng, data)


def rewrapped(rng, seeds):
    """A seed whose octets are changed, according to what they are, and written as digits again."""
    line = rng.choice(seeds)
    fields = line.split(b" ")
    which = rng.choice((-1, -2)) if fields[0] == b"match" else -1
    try:
        data = bytes.fromhex(fields[which].decode())
    except ValueError:
        return touch(rng, line)
    deep = {b"elements": reframed, b"rewrite": reframed, b"match": relisted, b"message": remessaged}
    change = deep.get(fields[0], touched) if rng.random() < 0.6 else touched
    fields[which] = shown(rng, change(rng, data))
    return b" ".join(fields)


def spliced(rng, seeds):
    one, two = rng.choice(seeds), rng.choice(seeds)
    if rng.random() < 0.5:
        return one[:rng.randrange(len(one) + 1)] + two[rng.randrange(len(two) + 1):]
    one, two = one.split(b" "), two.split(b" ")
    return b" ".join(one[:rng.randrange(len(one) + 1)] + two[rng.randrange(len(two) + 1):])


INSPECT_MAKERS = (
    (35, built),
    (30, rewrapped),
    (4, lambda rng, seeds: rng.choice(seeds)),
    (12, lambda rng, seeds: touched(rng, rng.choice(seeds))),
    (8, lambda rng, seeds: refield(rng, rng.choice(seeds), b" ")),
    (5, lambda rng, seeds: separate(rng, rng.choice(seeds))),
    (5, spliced),
    (1, lambda rng, seeds: stretch(rng, rng.choice(seeds))),
)


def inspect_seeds(root):
    seeds = read(root, "samples/inspect.txt").splitlines()
    for mode in ("elements", "rewrite", "match", "tunnel", "message", "address"):
        lines = read(root, "tests/vectors/%s.in" % mode).splitlines()
        seeds += [mode.encode() + b" " + line for line in lines]
    for name in sorted(os.listdir(os.path.join(root, "tests/appendix"))):
        if name.endswith(".txt"):
            text = read(root, "tests/appendix/" + name)
            seeds.append(b"message " + text.replace(b"a=ipbcp 2", b"a=ipbcp:1").replace(b"\n", b"\r\n").hex().encode())
    return seeds


def inspect_batch(rng, seeds, count):
    """That many lines as one input; half of the time the last has no LF."""
    makers = [m for _, m in INSPECT_MAKERS]
    weights = [w for w, _ in INSPECT_MAKERS]
    made = [make(rng, seeds) for make in rng.choices(makers, weights, k=count)]
    data = b"\n".join(made)
    return data if rng.random() < 0.5 else data + b"\n"


# ---- one endpoint, by document 01; shares no code with the card's

Own = collections.namedtuple("Own", "family address port least most codecs")
AUDIO, AVP = b"audio".hex().upper(), b"RTP/AVP".hex().upper()


def read_g(line):
    fields = line.split(b"\t")
    if len(fields) != 7 or fields[0] != b"G":
        return None
    for family in (4, 6):
        where = model.read_address(family, fields[1])
        if where:
            break
    numbers = [model.number(f, 1, high) for f, high in zip(fields[2:], (65535, 255, 255, 30, 30))]
    if not where or None in numbers or numbers[1] > numbers[2]:
        return None
    return Own(family, where, numbers[0], numbers[1], numbers[2], [])


def read_k(line):
    """A payload, a name, or None."""
    fields = line.split(b"\t")
    if len(fields) != 2 or not fields[1]:
        return None
    if all(o in b"0123456789" for o in fields[1]):
        return model.number(fields[1], 0, 95)
    right = len(fields[1]) <= 32 and all(33 <= o <= 126 for o in fields[1])
    return fields[1] if right else None


PREFIX = re.compile(rb"B\t(0|[1-9][0-9]*)\t(.*)\Z", re.S)


def read_event(line, whole, detailed):
    """-> kind, length of the output buffer, and the numbers or the octets after the kind."""
    room, event = 2048, line
    found = PREFIX.match(line) if detailed and len(line) <= 4096 else None
    if found:
        room, event = int(found[1]), found[2]
    fields = event.split(b"\t")
    if not whole or len(event) > 1199:
        return "bad", 2048, None
    if event in (b"X", b"T1", b"T2"):
        return event.decode(), room, None
    if fields[0] == b"M" and len(fields) == 2 and re.fullmatch(rb"([0-9A-Fa-f]{2})*", fields[1]):
        return "M", room, bytes.fromhex(fields[1].decode())
    if fields[0] in (b"U", b"C") and len(fields) == 4:
        numbers = [model.number(f, 0, 65535) for f in fields[1:]]
        if None not in numbers:
            return fields[0].decode(), room, numbers
    return "bad", 2048, None


def heard(data):
    """Version, type and fields (None if a line is wrong) of a message; None if its type can't be read."""
    text = model.message(data)
    if text in ("refused-8", "refused-9"):
        return None
    if text == "refused-10":
        version, kind = model.version_and_type(model.split_lines(data))
        return version, kind.decode(), None
    words = text.split(" ")
    return int(words[0]), words[1], words[2:] or None


class Endpoint:
    """Each event gives its notice, the octets that are written, and whether our change was dropped."""

    def __init__(self, own):
        self.own, self.state, self.side, self.bearer, self.request = own, "idle", None, None, None

    def written(self, kind, stream=None):
        """The octets of our message. stream: payload, rtpmap, fmtp, ptime as inspect shows them."""
        where = "IN IP%d %s" % (self.own.family, self.own.address)
        lines = ["v=0", "o=- 0 0 " + where, "s= ", "c=" + where, "t=0 0", "a=ipbcp:1 " + kind]
        lines = [line.encode() for line in lines]
        if stream:
            payload, rtpmap, fmtp, ptime = stream
            lines.append(b"m=audio %d RTP/AVP %s" % (self.own.port, payload.encode()))
            if rtpmap != "-":
                lines.append(b"a=rtpmap:%s %s" % (payload.encode(), bytes.fromhex(rtpmap)))
            for text in fmtp.split(",") if fmtp != "-" else ():
                lines.append(b"a=fmtp:" + (b"" if text == "empty" else bytes.fromhex(text)))
            if ptime != "0":
                lines.append(b"a=ptime:" + ptime.encode())
        return b"".join(line + b"\r\n" for line in lines)

    def in_range(self, ptime):
        return ptime == 0 or self.own.least <= ptime <= self.own.most

    def command(self, kind, entry, payload, ptime):
        if self.state != ("idle" if kind == "U" else "up"):
            return "refused-11", b"", False
        named = self.own.codecs[entry - 1] if 1 <= entry <= len(self.own.codecs) else None
        suits = 96 <= payload <= 127 if isinstance(named, bytes) else payload == named
        if not suits or not self.in_range(ptime):
            return "refused-5", b"", False
        rtpmap = named.hex().upper() if isinstance(named, bytes) else "-"
        self.request = [str(payload), rtpmap, "-", str(ptime)]
        if kind == "U":
            self.side = "I"
        self.state = "await-setup" if kind == "U" else "await-change"
        return "none", self.written("Request", self.request), False

    def release(self):
        if self.state == "idle":
            return "refused-11", b"", False
        self.state, self.bearer = "idle", None
        return "released", b"", False

    def fail(self):
        """The open attempt has failed."""
        setup = self.state == "await-setup"
        self.state = "idle" if setup else "up"
        return "setup-failed" if setup else "change-failed", b"", False

    def accepted(self, version, fields):
        change = self.state == "await-change"
        if version != 1 or fields is None:
            return self.fail()
        family, where, port, media, transport, payload, rtpmap, fmtp, ptime = fields
        right = (family == "IP%d" % self.own.family and (media, transport) == (AUDIO, AVP)
                 and [payload, rtpmap] == self.request[:2] and self.in_range(int(ptime))
                 and (not change or where == self.bearer[0]))
        if not right:
            return self.fail()
        self.bearer = [where, port, payload, rtpmap, fmtp, ptime]
        self.state = "up"
        return "changed" if change else "up", b"", False

    def suits(self, fields):
        """Whether a version 1 Request with these fields is right."""
        if fields is None:
            return False
        family, where, port, media, transport, payload, rtpmap, _, _ = fields
        if int(payload) < 96:
            known = int(payload) in self.own.codecs
        else:
            known = rtpmap != "-" and bytes.fromhex(rtpmap) in self.own.codecs
        return (family == "IP%d" % self.own.family and (media, transport) == (AUDIO, AVP) and known
                and (self.state == "idle" or [where, port] == self.bearer[:2]))

    def requested(self, version, fields):
        if self.state == "await-setup" or self.state == "await-change" and self.side == "I":
            return "discarded", b"", False
        if version != 1:
            return "confused", self.written("Confused"), False
        dropped = self.state == "await-change"
        if dropped:
            self.state = "up"
        if not self.suits(fields):
            return "rejected", self.written("Rejected"), dropped
        where, port, payload, rtpmap, fmtp, ptime = fields[1:3] + fields[5:]
        if ptime != "0":
            ptime = str(min(max(int(ptime), self.own.least), self.own.most))
        notice = "changed"
        if self.state == "idle":
            self.state, self.side, notice = "up", "R", "up"
        self.bearer = [where, port, payload, rtpmap, fmtp, ptime]
        return notice, self.written("Accepted", [payload, rtpmap, fmtp, ptime]), dropped

    def message(self, data):
        said = heard(data)
        if said and said[1] == "Request":
            return self.requested(said[0], said[2])
        if said is None or self.state in ("idle", "up"):
            return "discarded", b"", False
        if said[1] == "Accepted":
            return self.accepted(said[0], said[2])
        return self.fail()

    def event(self, kind, room, rest):
        if kind == "bad":
            return "refused-13", b"", False
        if room < 512:
            return "refused-4", b"", False
        if kind == "M":
            return self.message(rest)
        if kind == "X":
            return self.release()
        if kind in ("U", "C"):
            return self.command(kind, *rest)
        if self.state == ("await-setup" if kind == "T1" else "await-change"):
            return self.fail()
        return "discarded", b"", False

    def shown(self):
        if self.state in ("idle", "await-setup"):
            return "-"
        where, port, payload, rtpmap, fmtp, ptime = self.bearer
        return ";".join((where, port, "audio", "RTP/AVP", payload, rtpmap, fmtp, ptime))


class Trace:
    """What a trace program prints, line by line."""

    def __init__(self, detailed):
        self.detailed, self.own, self.endpoint, self.printed, self.count = detailed, None, None, [], 0
        self.stopped = False

    def refuse(self):
        self.stopped, self.printed = True, ["refused-12"]

    def configure(self, line, whole):
        """Whether the line belongs to the configuration."""
        right = whole and len(line) <= 1199
        if self.own is None:
            self.own = read_g(line) if right else None
            if self.own is None:
                self.refuse()
            return True
        if line.split(b"\t")[0] != b"K":
            return False
        entry = read_k(line) if right else None
        self.own.codecs.append(entry)
        if entry is None or len(self.own.codecs) > 8:
            self.refuse()
        return True

    def begin(self):
        """The configuration is complete."""
        if self.own is None or not self.own.codecs:
            return self.refuse()
        self.printed.append("n event state notice dropped written")
        self.endpoint = Endpoint(self.own)

    def line(self, line, whole=True):
        if self.stopped or self.endpoint is None and self.configure(line, whole):
            return
        if self.endpoint is None:
            self.begin()
        if self.stopped:
            return
        kind, room, rest = read_event(line, whole, self.detailed)
        notice, octets, dropped = self.endpoint.event(kind, room, rest)
        self.count += 1
        text = "%d %s %s %s %s %d" % (
            self.count, kind, self.endpoint.state, notice, "yes" if dropped else "no", len(octets))
        if self.detailed:
            text += " %s %s" % (octets.hex().upper() or "-", self.endpoint.shown())
        self.printed.append(text)

    def finish(self):
        if not self.stopped and self.endpoint is None:
            self.begin()
        return self.printed


def cut(data):
    """The lines of an input, each with whether an LF ends it."""
    lines = data.split(b"\n")
    last = lines.pop()
    return [(line, True) for line in lines] + ([(last, False)] if last else [])


def expected(data, detailed):
    trace = Trace(detailed)
    for line, whole in cut(data):
        trace.line(line, whole)
    return trace.finish()


# ---- traces

class Maker:
    """Makes the lines of a trace that follow what the endpoint awaits, so that they get far into the program."""

    def __init__(self, rng, seeds, prefixed):
        self.rng, self.seeds, self.prefixed = rng, seeds, prefixed
        self.trace, self.made = Trace(True), []
        self.peer, self.port = None, b"6000"

    def give(self, line):
        self.made.append(line)
        for part in line.split(b"\n"):
            self.trace.line(part)

    def configure(self):
        rng = self.rng
        family = rng.choice((4, 6))
        least = rng.choice((1, 10, 20, 255))
        own = b"198.51.100.%d" % rng.randrange(256) if family == 4 else b"2001:db8::%x" % rng.randrange(1, 65536)
        lines = [b"G\t%s\t%d\t%d\t%d\t%d\t%d" % (own, rng.choice((1, 4000, 65535)), least, rng.choice((least, 255)),
                                                 rng.choice((1, 5, 30)), rng.choice((1, 5, 30)))]
        names = (b"AMR/8000", b"telephone-event/8000", b"x", b"!~;", b"n" * 32, b"8x")
        lines += [b"K\t" + rng.choice((b"0", b"8", b"18", b"95", rng.choice(names), rng.choice(names)))
                  for _ in range(rng.choice((1, 2, 3, 8)))]
        self.peer = b"192.0.2.%d" % rng.randrange(256) if family == 4 else b"2001:db8:1::%x" % rng.randrange(1, 65536)
        return lines

    def misconfigure(self, lines):
        rng = self.rng
        for _ in range(rng.choice((1, 1, 2))):
            i = rng.randrange(len(lines))
            what = rng.randrange(7)
            if what == 0:
                lines.pop(i)
            elif what == 1:
                lines.insert(i, rng.choice(lines))
            elif what == 2:
                lines[i] = touch(rng, lines[i])
            elif what == 3:
                lines[i] = separate(rng, lines[i])
            elif what == 4:
                lines += [b"K\t%d" % k for k in range(rng.randrange(10))]
            elif what == 5:
                lines[i] = stretch(rng, lines[i])
            else:
                lines[i] = refield(rng, lines[i], b"\t")
            lines = lines or [b""]
        return lines

    def suiting(self):
        """A command that suits the configuration, sometimes except for its number."""
        rng, own = self.rng, self.trace.own
        entry = rng.randrange(len(own.codecs))
        codec_ = own.codecs[entry]
        payload = codec_ if isinstance(codec_, int) else rng.choice((96, 97, 127))
        numbers = [b"%d" % n for n in (entry + 1, payload, rng.choice((0, own.least, own.most)))]
        if rng.random() < 0.12:
            numbers[rng.randrange(3)] = rng.choice(EDGES)
        state = self.trace.endpoint.state
        letter = b"U" if state == "idle" else b"C"
        if rng.random() < 0.1:
            letter = rng.choice((b"U", b"C"))
        return b"\t".join([letter] + numbers)

    def said(self, kind, payload, rtpmap):
        """What the peer says, right but sometimes for one field."""
        rng, own = self.rng, self.trace.own
        ptime = rng.choice((None, None, b"%d" % own.least, b"%d" % own.most, b"1", b"255"))
        fmtp = [b"%s %d" % (payload, i) for i in range(rng.choice((0, 0, 0, 1, 3)))]
        version = rng.choice((b"1",) * 15 + (b"2", b"0"))
        said = Said(kind, version, own.family, self.peer, self.port, b"audio", b"RTP/AVP", payload, rtpmap, fmtp, ptime)
        if rng.random() < 0.75:
            return said
        other = some_said(rng)
        name = rng.choice(("family", "address", "port", "media", "transport", "payload", "rtpmap", "fmtp", "ptime"))
        return said._replace(**{name: getattr(other, name)})

    def message(self):
        rng, own = self.rng, self.trace.own
        awaits = self.trace.endpoint.state.startswith("await")
        kinds = (b"Accepted",) * 8 + (b"Rejected", b"Confused") if awaits else (b"Accepted", b"Rejected")
        kind = rng.choice(kinds + (b"Request",) * 4)
        if kind == b"Accepted" and self.trace.endpoint.request:
            payload, rtpmap = self.trace.endpoint.request[:2]
            payload, rtpmap = payload.encode(), None if rtpmap == "-" else bytes.fromhex(rtpmap)
            self.port = rng.choice((b"6000", b"6002", b"65535"))
        else:
            codec_ = rng.choice(own.codecs)
            rtpmap = None if isinstance(codec_, int) else codec_
            payload = b"%d" % (rng.randrange(96, 128) if rtpmap else codec_)
        if self.trace.endpoint.bearer and kind == b"Request":
            self.port = self.trace.endpoint.bearer[1].encode()
        said = self.said(kind, payload, rtpmap)
        text = joined(rng, message_lines(said)) if rng.random() < 0.8 else some_message(rng, said)
        return b"M\t" + digits(rng, text)

    def long(self):
        """A message or a line of about as many octets as allowed."""
        rng = self.rng
        if rng.random() < 0.5:
            return stretch(rng, self.message())
        line = self.message()
        return line + b"0" * max(0, 1199 + rng.randrange(-3, 3) - len(line))

    def line(self):
        rng = self.rng
        what = rng.random()
        if what < 0.5:
            return self.message()
        if what < 0.75:
            return self.suiting()
        if what < 0.84:
            return rng.choice((b"T1", b"T2", b"X"))
        if what < 0.9:
            return maybe(rng, 0.5, touched, rng.choice(self.seeds))
        if what < 0.94:
            return touched(rng, self.message() if rng.random() < 0.5 else self.suiting())
        if what < 0.96:
            return refield(rng, self.suiting(), b"\t")
        if what < 0.98:
            return separate(rng, rng.choice((self.suiting, self.message))())
        if what < 0.985:
            return self.long()
        return rng.choice((b"", b"hello", b"M", b"M\t", b"M\t0", b"x1", b"t1", b"T3", b"T1\t", b"X\t", b"K\t8", b"n",
                           b"G\t192.0.2.10\t4000\t10\t40\t5\t5", b"B", b"B\t", b"B\t512\t", b"\xff\xfe"))

    def lent(self, line):
        """line, sometimes after the length of an output buffer."""
        if not self.prefixed or self.rng.random() < 0.5:
            return line
        length = self.rng.choice((b"512", b"2048", b"65535", b"65536") + EDGES)
        if self.rng.random() < 0.01:
            # With it a line has at most 4,096 octets.
            length = b"1" * max(1, self.rng.choice((4095, 4096, 4096, 4097)) - 3 - len(line))
        return b"B\t" + length + b"\t" + line


def make_trace(rng, seeds, count):
    """A trace of about that many lines, and what tracedetail prints for it."""
    maker = Maker(rng, seeds, rng.random() < 0.5)
    lines = maker.configure()
    if rng.random() < (0.5 if count < 10 else 0.02):
        lines = maker.misconfigure(lines)
    for line in lines:
        maker.give(line)
    if maker.trace.stopped or not maker.trace.own.codecs:
        for _ in range(count):
            maker.give(rng.choice(seeds))
    else:
        if maker.trace.endpoint is None:
            maker.give(b"T1")
        for _ in range(count):
            maker.give(maker.lent(maker.line()))
    data = b"\n".join(maker.made) + b"\n"
    if rng.random() < 0.3:
        data = data[:-1]
        return data, expected(data, True)
    return data, maker.trace.finish()


def trace_seeds(root):
    lines = read(root, "samples/trace.txt").split(b"\n")
    for kind in ("plain-traces", "traces"):
        for name in sorted(os.listdir(os.path.join(root, "tests/vectors", kind))):
            if name.endswith(".in"):
                lines += read(root, "tests/vectors/%s/%s" % (kind, name)).split(b"\n")
    return lines


# ---- the formats of the answers

N = r"(?:0|[1-9][0-9]*)"
W = r"[1-9][0-9]*"
X = r"(?:[0-9A-F]{2})"
V4 = r"%s\.%s\.%s\.%s" % (N, N, N, N)
V6 = r"[0-9a-f:]{3,39}"
FMTP = r"(?:-|(?:empty|%s+)(?:,(?:empty|%s+)){0,2})" % (X, X)
VALUES = (
    r"1/{n}/{n}/action=(?:1?[0-9]|2[0-4])", r"2/{n}/{n}/backbone={x}{{1,4}}", r"3/{n}/{n}/address={x}{{1,20}}",
    r"4/{n}/{n}/codecs=[012]\.{x}+(?:,[012]\.{x}+)*", r"5/{n}/{n}/codec=[012]\.{x}+",
    r"6/{n}/{n}/report={n}(?:;{n},{n})*", r"7/{n}/{n}/characteristics=[0-4]", r"8/{n}/{n}/control={x}+",
    r"9/{n}/{n}/tunnelling=[01]", r"10/{n}/{n}/unit=(?:-|{x}+)\.{x}+", r"11/{n}/{n}/signal={n}(?:;{n})?",
    r"12/{n}/{n}/capability=[01]", r"13/{n}/{n}/indicators=(?:0[0-9AB]){{1,16}}", r"14/{n}/{n}/type={n}",
    r"15/{n}/{n}/duration={n}", r"{n}/{n}/{n}/unknown:(?:pass|element|data|release):[01]:{n},{n}")
ELEMENT = "(?:%s)" % "|".join(v.format(n=N, x=X) for v in VALUES)
INSPECT_FORMS = {
    b"elements": r"refused-[123]|(?:neither|data|release) {n}(?: {e})* listed=(?:-|{n},{n}(?:;{n},{n})*)",
    b"rewrite": r"refused-[12345]|unknown|{x}{{4,}}",
    b"match": r"refused-(?:1|2|14|15)|{w}/{w} (?:refused-4|04{x}{{7,}})",
    b"tunnel": r"refused-[467]|notice|reply (?:60|20){x}|message (?:-|{x}+)",
    b"message": r"refused-(?:8|9|10)|{n} (?:Confused|Rejected)|(?!1 ){n} (?:Request|Accepted)|1 (?:Request|Accepted) "
                r"(?:IP4 {v4}|IP6 {v6}) {n} {x}+ {x}+ {n} (?:-|{x}+) {f} {n}",
    b"address": r"no|{v4}|{v6}"}
INSPECT_FORMS = {mode: re.compile("(?:bad-line|%s)" % form.format(n=N, w=W, x=X, e=ELEMENT, v4=V4, v6=V6, f=FMTP))
                 for mode, form in INSPECT_FORMS.items()}
STATES = ("idle", "await-setup", "up", "await-change")
# Kind, states, notice, dropped, octets written (`+`: some, `*`: any).
ANSWERS = (
    ("bad", STATES, "refused-13", "no", "0"),
    ("U", STATES[1:2], "none", "no", "+"), ("U", STATES[:1], "refused-5", "no", "0"),
    ("U", STATES[1:], "refused-11", "no", "0"),
    ("C", STATES[3:], "none", "no", "+"), ("C", STATES[2:3], "refused-5", "no", "0"),
    ("C", ("idle", "await-setup", "await-change"), "refused-11", "no", "0"),
    ("X", STATES[:1], "released", "no", "0"), ("X", STATES[:1], "refused-11", "no", "0"),
    ("T1", STATES[:1], "setup-failed", "no", "0"), ("T1", ("idle", "up", "await-change"), "discarded", "no", "0"),
    ("T2", STATES[2:3], "change-failed", "no", "0"), ("T2", STATES[:3], "discarded", "no", "0"),
    ("M", STATES[:1], "setup-failed", "no", "0"), ("M", STATES[2:3], "change-failed", "no", "0"),
    ("M", STATES[2:3], "up", "no", "*"),
    ("M", STATES[2:3], "changed", "no", "*"), ("M", STATES[2:3], "changed", "yes", "+"),
    ("M", ("idle", "up"), "rejected", "no", "+"), ("M", STATES[2:3], "rejected", "yes", "+"),
    ("M", ("idle", "up", "await-change"), "confused", "no", "+"), ("M", STATES, "discarded", "no", "0"))
SHORT = tuple((kind, STATES, "refused-4", "no", "0") for kind in ("U", "C", "X", "T1", "T2", "M"))


def trace_form(answers, rest):
    """The lines of these answers, each with `rest` after it."""
    count = {"0": "0", "+": W, "*": N}
    forms = ["%s (?:%s) %s %s %s" % (kind, "|".join(states), notice, dropped, count[written])
             for kind, states, notice, dropped, written in answers]
    return re.compile("(%s) (?:%s)%s" % (W, "|".join(forms), rest))


BEARER = "(?:%s|%s);%s;audio;RTP/AVP;%s;(?:-|%s+);%s;%s" % (V4, V6, W, N, X, FMTP, N)
PLAIN_FORM = trace_form(ANSWERS, "")
DETAIL_FORM = trace_form(ANSWERS + SHORT, " (?:-|%s+) (?:-|%s)" % (X, BEARER))


# Lines that inspect answers with `bad-line`.
BAD_LINES = (b"", b"no", b"\0", b"message 0", b"x" * 16384, b"y" * 70000)


# ---- runs

class Fault(Exception):
    """What is wrong, with the number of the input's line, from 0, if there is one."""

    def __init__(self, what, line=None):
        super().__init__(what)
        self.line, self.data = line, None


@contextlib.contextmanager
def giving(data):
    """A fault in here is reported with this input instead of that of the batch."""
    try:
        yield
    except Fault as fault:
        fault.data = data
        raise


def read(root, name):
    with open(os.path.join(root, name), "rb") as f:
        return f.read()


def run(argv, data):
    """What the program prints; it must end by itself, with status 0 and without a word on standard error."""
    try:
        done = subprocess.run(argv, input=data, capture_output=True, timeout=LIMIT)
    except subprocess.TimeoutExpired:
        raise Fault("does not end within %d s" % LIMIT) from None
    return judged(done.returncode, done.stdout, done.stderr)


def judged(status, out, err):
    if status != 0:
        raise Fault("ends with status %d %s" % (status, err[-2000:].decode("latin-1")))
    if err:
        raise Fault("writes to standard error: %s" % err[-2000:].decode("latin-1"))
    if out and not out.endswith(b"\n"):
        raise Fault("the last line of output has no LF")
    return out


def run_in_pieces(rng, argv, data):
    """The same, with the input given in pieces of random length."""
    most = rng.choice((1, 7, 300, 5000, 70000))
    process = subprocess.Popen(argv, stdin=subprocess.PIPE, stdout=subprocess.PIPE, stderr=subprocess.PIPE, bufsize=0)
    timer = threading.Timer(LIMIT, process.kill)
    timer.start()

    def write():
        at = 0
        try:
            while at < len(data):
                size = rng.randint(1, most)
                os.write(process.stdin.fileno(), data[at:at + size])
                at += size
                if rng.random() < 0.1:
                    time.sleep(0)
        except BrokenPipeError:
            pass
        process.stdin.close()

    writer = threading.Thread(target=write)
    writer.start()
    out, err = process.stdout.read(), process.stderr.read()
    process.stdout.close()
    process.stderr.close()
    status = process.wait()
    writer.join()
    timer.cancel()
    return judged(status, out, err)


def same(got, want, what, first=0):
    """got and want are lists of lines; the first is the answer to the input's line `first`."""
    if got == want:
        return
    for i, (g, w) in enumerate(zip(got, want)):
        if g != w:
            raise Fault("%s: line %d of output\n  want %s\n  got  %s" % (what, i + 1, w[:3000], g[:3000]), first + i)
    raise Fault("%s: %d lines of output, not %d" % (what, len(got), len(want)), first + min(len(got), len(want)))


def lines_of(out):
    return out.decode("latin-1").split("\n")[:-1]


def check_inspect(argv, data, tally=None):
    """One right answer for each line."""
    got = lines_of(run(argv, data))
    lines = [line for line, _ in cut(data)]
    if len(got) != len(lines):
        raise Fault("%d answers for %d lines" % (len(got), len(lines)))
    for i, (line, answer) in enumerate(zip(lines, got)):
        mode = line.split(b" ")[0]
        form = INSPECT_FORMS.get(mode)
        if not (form.fullmatch(answer) if form else answer == "bad-line"):
            raise Fault("no answer has this form: %s" % answer[:3000], i)
        if tally is not None:
            tally_inspect(tally, mode, answer)
    same(got, [model.answer(line) for line in lines], "differs from tests/model.py")
    return got


def configuring(lines):
    """How many lines configure: the first, and those of `K` after it."""
    front = 1
    while front < len(lines) and lines[front].split(b"\t")[0] == b"K":
        front += 1
    return front


def check_form(got, data, detailed):
    """The lines of a trace program have the right format, numbers and counts."""
    if got == ["refused-12"]:
        return
    form = DETAIL_FORM if detailed else PLAIN_FORM
    if got[:1] != ["n event state notice dropped written"]:
        raise Fault("no line of field names", 0)
    lines = [line for line, _ in cut(data)]
    front = configuring(lines)
    if len(got) != 1 + len(lines) - front:
        raise Fault("%d answers for %d lines behind the configuration" % (len(got) - 1, len(lines) - front))
    for i, line in enumerate(got[1:]):
        found = form.fullmatch(line)
        if not found or int(found[1]) != i + 1:
            raise Fault("no answer %d has this form: %s" % (i + 1, line), front + i)
        fields = line.split(" ")
        if detailed and int(fields[5]) != len(fields[6].strip("-")) // 2:
            raise Fault("`written` is not the number of octets: %s" % line, front + i)
        if detailed and (fields[7] == "-") != (fields[2] in STATES[:2]):
            raise Fault("a bearer that the state has not, or none: %s" % line, front + i)


def first_columns(lines):
    return [" ".join(line.split(" ")[:6]) for line in lines]


def check_trace(argv, data, detailed, want):
    got = lines_of(run(argv, data))
    check_form(got, data, detailed)
    same(got, want, "differs from the rules", configuring([line for line, _ in cut(data)]) - 1)
    return got


def bad_line(rng, detailed):
    """A line that is bad anywhere after the configuration."""
    return rng.choice((b"", b"hello", b"G", b"M\t0", b"U\t1\t8", b"\0", b"X\r", b"M\t" + b"0" * 1198, b"x" * 70000,
                       b"B\t512\tX" if not detailed else b"B\t0512\tX", b"T1 ", b"\xff" * 4097))


def with_bad(rng, head, body, bad):
    """body with bad lines added; and for each line whether it was there before."""
    out, there = list(head), [True] * len(head)
    for line in body:
        if rng.random() < 0.1:
            out.append(bad(rng))
            there.append(False)
        out.append(line)
        there.append(True)
    return b"\n".join(out) + b"\n", there


def narrow(head, lines, fails):
    """A part of lines, found by halving, that still fails."""
    until = time.time() + NARROWING
    while len(lines) > 1 and time.time() < until:
        half = len(lines) // 2
        for part in (lines[:half], lines[half:]):
            if fails(b"\n".join(head + part) + b"\n"):
                lines = part
                break
        else:
            break
    return b"\n".join(head + lines) + b"\n"


# ---- what came up

def tally_inspect(tally, mode, answer):
    words = answer.split(" ")
    name = mode.decode() if mode in INSPECT_FORMS else "line"
    if words[-1].startswith("listed="):
        tally["elements: " + words[0]] += 1
        for word in words[2:-1]:
            value = word.split("/", 3)[3]
            kind = value.split("=")[0] if "=" in value else ":".join(value.split(":")[:3])
            tally["element " + kind] += 1
        if words[-1] != "listed=-":
            tally["elements: some listed"] += 1
    elif mode == b"match" and len(words) > 1:
        tally["match: chosen, " + ("refused-4" if words[1] == "refused-4" else "written")] += 1
    elif mode == b"message" and len(words) > 1:
        tally["message: version %s %s" % ("1" if words[0] == "1" else "other", " ".join(words[1:3]))] += 1
    elif re.fullmatch("[0-9A-F]+|.*[.:].*", words[0]):
        tally[name + ": written"] += 1
    else:
        tally["%s: %s" % (name, words[0])] += 1


def tally_trace(tally, got):
    if got == ["refused-12"]:
        tally["refused-12"] += 1
    for line in got[1:]:
        fields = line.split(" ")
        tally["%s %s %s%s" % (fields[1], fields[2], fields[3], " dropped" if fields[4] == "yes" else "")] += 1


def inspect_kinds():
    values = [v.split("/")[-1].split("=")[0] for v in VALUES[:-1]]
    unknown = ["unknown:%s:%d" % (o, n) for o in ("pass", "element", "data", "release") for n in (0, 1)]
    kinds = ["element " + v for v in values + unknown]
    kinds += ["elements: " + w for w in ("neither", "data", "release", "some listed")]
    numbers = {"elements": (1, 2, 3), "rewrite": (1, 2, 3, 4, 5), "match": (1, 2, 14, 15), "tunnel": (4, 6, 7),
               "message": (8, 9, 10)}
    for mode, refusals in numbers.items():
        kinds += ["%s: refused-%d" % (mode, n) for n in refusals]
    kinds += [mode.decode() + ": bad-line" for mode in INSPECT_FORMS] + ["line: bad-line"]
    kinds += ["tunnel: notice", "tunnel: reply", "tunnel: message", "rewrite: unknown", "rewrite: written"]
    kinds += ["match: chosen, refused-4", "match: chosen, written"]
    kinds += ["message: version 1 %s IP%d" % (t, f) for t in ("Request", "Accepted") for f in (4, 6)]
    kinds += ["message: version 1 " + t for t in ("Confused", "Rejected")]
    kinds += ["message: version other " + t for t in ("Request", "Accepted", "Confused", "Rejected")]
    return kinds + ["address: no", "address: written"]


def trace_kinds(answers):
    return ["refused-12"] + ["%s %s %s%s" % (kind, state, notice, " dropped" if dropped == "yes" else "")
                             for kind, states, notice, dropped, _ in answers for state in states]


# ---- the whole

class Fuzz:
    def __init__(self, root, seed, programs):
        self.root, self.seed = root, seed
        self.inspect, self.bearertrace, self.tracedetail = programs
        self.kept = None
        self.seeds = inspect_seeds(root), trace_seeds(root)
        self.tallies = {name: collections.Counter() for name in ("inspect", "bearertrace", "tracedetail")}
        self.counts = collections.Counter()

    def rng(self, *names):
        return random.Random("/".join(str(n) for n in (self.seed,) + names))

    def keep(self, name, fault, data):
        """Reports the fault and keeps the input."""
        self.kept = self.kept or tempfile.mkdtemp(prefix="fuzz-")
        place = os.path.join(self.kept, name + ".in")
        with open(place, "wb") as f:
            f.write(data)
        print("%s: %s\n  its input is kept in %s" % (name, fault, place))

    def inspect_whole(self, argv, data, n):
        got = check_inspect(argv, data, self.tallies["inspect"])
        rng = self.rng("inspect checks", n)
        if n % 10 == 0:
            part = data[:rng.choice((20000, 60000, 400000))]
            with giving(part):
                again = run_in_pieces(rng, argv, part)
                same(lines_of(again), lines_of(run(argv, part)), "given in pieces it differs")
            self.counts["inspect lines given in pieces"] += part.count(b"\n")
        if n % 5 == 0:
            lines = [line for line, _ in cut(data)]
            more, there = with_bad(rng, [], lines, lambda rng: rng.choice(BAD_LINES))
            with giving(more):
                left = [line for line, was in zip(lines_of(run(argv, more)), there) if was]
                same(left, got, "a bad line alters a later answer")
            self.counts["inspect lines among bad ones"] += len(lines)

    def inspect_part(self, count):
        n = 0
        argv = [self.inspect]
        while count > 0:
            data = inspect_batch(self.rng("inspect", n), self.seeds[0], min(count, INSPECT_BATCH))
            try:
                self.inspect_whole(argv, data, n)
            except Fault as fault:
                self.keep("inspect", fault, fault.data or self.narrowed_inspect(argv, data, fault))
                return False
            done = len(cut(data))
            self.counts["inspect lines"] += done
            count -= done
            n += 1
        return True

    def narrowed_inspect(self, argv, data, fault):
        lines = [line for line, _ in cut(data)]

        def fails(part):
            try:
                check_inspect(argv, part)
            except Fault:
                return True
            return False

        if fault.line is not None and fault.line < len(lines) and fails(lines[fault.line] + b"\n"):
            return lines[fault.line] + b"\n"
        return narrow([], lines, fails) if fails(data) else data

    def trace_whole(self, data, want, n):
        """Both programs on one trace."""
        prefixed = any(line.startswith(b"B\t") for line, _ in cut(data))
        plain_want = expected(data, False) if prefixed else first_columns(want)
        for argv, detailed, right in (([self.tracedetail], True, want), ([self.bearertrace], False, plain_want)):
            name = "tracedetail" if detailed else "bearertrace"
            rng = self.rng(name, "checks", n)
            self.at = argv, detailed
            got = check_trace(argv, data, detailed, right)
            tally_trace(self.tallies[name], got)
            self.counts[name + " lines"] += len(cut(data))
            self.counts[name + " traces"] += 1
            if n % 10 == 0:
                with giving(data):
                    same(lines_of(run_in_pieces(rng, argv, data)), got, "given in pieces it differs")
                self.counts[name + " lines given in pieces"] += len(cut(data))
            if n % 5 == 0 and got != ["refused-12"]:
                self.among_bad(rng, argv, detailed, data, got)
                self.counts[name + " lines among bad ones"] += len(got) - 1

    def among_bad(self, rng, argv, detailed, data, got):
        """Bad lines added after the configuration change the numbers of the later lines and nothing else."""
        parts = cut(data)
        lines = [line for line, whole in parts if whole]
        front = len(parts) - (len(got) - 1)
        more, there = with_bad(rng, lines[:front], lines[front:], lambda rng: bad_line(rng, detailed))
        with giving(more):
            out = lines_of(run(argv, more))
            left = [line for line, was in zip(out[1:], there[front:]) if was]
            without = [line.split(" ", 1)[1] for line in left]
            same(without, [line.split(" ", 1)[1] for line in got[1:1 + len(left)]], "a bad line alters a later answer")
            if len(left) != len(lines) - front:
                raise Fault("%d answers among bad lines for %d" % (len(left), len(lines) - front))

    def trace_part(self, count):
        n = 0
        while count > 0:
            rng = self.rng("trace", n)
            size = min(max(1, count // 2), rng.choice((1, 2, 3, 5, 8, 30, 100, 300, 800)))
            data, want = make_trace(rng, self.seeds[1], size)
            try:
                self.trace_whole(data, want, n)
            except Fault as fault:
                argv, detailed = self.at
                name = "tracedetail" if detailed else "bearertrace"
                self.keep(name, fault, fault.data or self.narrowed_trace(argv, detailed, data, fault))
                return False
            count -= 2 * len(cut(data))
            n += 1
        return True

    def narrowed_trace(self, argv, detailed, data, fault):
        def fails(part):
            try:
                check_trace(argv, part, detailed, expected(part, detailed))
            except Fault:
                return True
            return False

        lines = [line for line, _ in cut(data)]
        head = lines[:configuring(lines)]
        if fault.line is not None and fails(b"\n".join(lines[:fault.line + 1]) + b"\n"):
            lines = lines[:fault.line + 1]
        elif not fails(b"\n".join(lines) + b"\n"):
            return data
        return narrow(head, lines[len(head):], fails)

    def valgrind_part(self, count):
        """That many more lines, under valgrind: it says nothing, and the answers are the same. (The built
        programs have no address sanitizer in them. Valgrind needs none, but can't tell arrays on the stack apart.)"""
        if not shutil.which("valgrind"):
            print("valgrind is not installed: no line is run under it")
            return True
        under = ["valgrind", "-q", "--error-exitcode=99"]
        inputs = []
        for n in range(max(1, count * 3 // 5 // 200)):
            inputs.append((self.inspect, inspect_batch(self.rng("valgrind inspect", n), self.seeds[0], 200)))
        for n in range(max(1, count // 5 // 100)):
            data, _ = make_trace(self.rng("valgrind trace", n), self.seeds[1], 100)
            inputs += [(self.bearertrace, data), (self.tracedetail, data)]
        for program, data in inputs:
            name = os.path.basename(program)
            try:
                out = run(under + [program], data)
                same(lines_of(out), lines_of(run([program], data)), "under valgrind it differs")
            except Fault as fault:
                self.keep(name + "-valgrind", fault, data)
                return False
            self.counts["%s lines under valgrind" % name] += len(cut(data))
        return True

    def report(self, whole):
        """What came up; False if some kind of answer did not, in a run that is long enough for all."""
        for name, count in self.counts.items():
            print("%8d %s" % (count, name))
        complete = True
        kinds = {"inspect": inspect_kinds(), "bearertrace": trace_kinds(ANSWERS),
                 "tracedetail": trace_kinds(ANSWERS + SHORT)}
        for name, tally in self.tallies.items():
            print("%s answered:" % name)
            met = ["%s %d" % (kind, tally[kind]) for kind in sorted(tally)]
            print(textwrap.fill("; ".join(met), 118, initial_indent="  ", subsequent_indent="  "))
            missing = [kind for kind in kinds[name] if not tally[kind]]
            if missing:
                print("  never met: " + "; ".join(missing))
                complete = complete and not whole
        return complete


def main():
    if hasattr(sys, "set_int_max_str_digits"):
        sys.set_int_max_str_digits(0)
    lines, seed, checked = int(sys.argv[1]), sys.argv[2], int(sys.argv[3])
    root = os.path.join(os.path.dirname(os.path.abspath(__file__)), "..")
    fuzz = Fuzz(root, seed, sys.argv[4:7])
    begun = time.time()
    right = fuzz.inspect_part(lines * 3 // 5)
    right = fuzz.trace_part(lines - lines * 3 // 5) and right
    if checked:
        right = fuzz.valgrind_part(checked) and right
    complete = fuzz.report(right and lines >= ENOUGH)
    print("fuzz: seed %s, %d s, %s" % (seed, time.time() - begun, "all right" if right and complete else "FAULTS"))
    sys.exit(0 if right and complete else 1)


if __name__ == "__main__":
    main()
