#!/usr/bin/env python3
"""What inspect should answer in the modes elements, rewrite, match, tunnel, message and address. Shares no code with
the card: its rules were written from document 01, match from document 02, and the readings of both, without sight of
the card's code. Two points of the line format are not its own: that numbers have no leading zero, and how long a line
may be, follow docs/DECISIONS.md, so agreement on those two is not evidence. Reads lines on standard input and prints
one answer for each."""
import re
import sys


class Unframed(Exception):
    pass


def frame(data, at):
    """One element at `at` in data -> (identifier, compatibility octets, contents, end)."""
    ident = data[at]
    p = at + 1
    if p >= len(data):
        raise Unframed("length octet missing")
    first = data[p]
    p += 1
    length = first & 0x7F
    if first & 0x80 == 0:
        if p >= len(data):
            raise Unframed("second length octet missing")
        second = data[p]
        p += 1
        if second & 0x80 == 0:
            raise Unframed("second length octet continues")
        length += (second & 0x0F) * 128
    if length == 0:
        raise Unframed("length 0")
    if p + length > len(data):
        raise Unframed("passes the end")
    body = data[p:p + length]
    k = 0
    while True:
        if k == len(body):
            raise Unframed("compatibility does not end")
        k += 1
        if body[k - 1] & 0x80:
            break
    return ident, body[:k], body[k:], p + length


class Wrong(Exception):
    """Contents not recognised; index as the diagnostic gives it."""

    def __init__(self, index=0):
        self.index = index


def hexa(octets):
    return bytes(octets).hex().upper() or "-"


def need(cond):
    if not cond:
        raise Wrong(0)


def simple(ident, c):
    """Contents of a simple element -> (value text, contents as written)."""
    n = len(c)
    if ident == 1:
        need(n == 1 and c[0] <= 24)
        return "action=%d" % c[0], c
    if ident == 2:
        need(1 <= n <= 4)
        return "backbone=" + hexa(c), c
    if ident == 3:
        need(1 <= n <= 20)
        return "address=" + hexa(c), c
    if ident == 5:
        need(n >= 2 and c[0] in (0, 1, 2))
        if c[0] == 1:
            need(c[1] <= 12)
            if 1 <= c[1] <= 6:
                need(n == 2)
        return "codec=%d.%s" % (c[0], hexa(c[1:])), c
    if ident == 6:
        need(n >= 1 and (n - 1) % 3 == 0)
        text = "report=%d" % c[0]
        for i in range(1, n, 3):
            text += ";%d,%d" % (c[i], c[i + 1] * 256 + c[i + 2])
        return text, c
    if ident == 7:
        need(n == 1 and c[0] <= 4)
        return "characteristics=%d" % c[0], c
    if ident == 8:
        need(n >= 1)
        return "control=" + hexa(c), c
    if ident == 9:
        need(n == 1)
        return "tunnelling=%d" % (c[0] & 1), bytes([c[0] & 1])
    if ident == 10:
        need(n >= 1 and n >= 1 + c[0] + 1)
        return "unit=%s.%s" % (hexa(c[1:1 + c[0]]), hexa(c[1 + c[0]:])), c
    if ident == 12:
        need(n >= 1 and c[-1] & 0x80 and not any(o & 0x80 for o in c[:-1]))
        return "capability=%d" % (c[0] & 1), bytes([0x80 | (c[0] & 1)])
    if ident == 13:
        need(1 <= n <= 16 and all(o <= 11 for o in c))
        return "indicators=" + hexa(c), c
    if ident == 14:
        need(n == 1 and (c[0] <= 15 or 64 <= c[0] <= 83))
        return "type=%d" % c[0], c
    if ident == 15:
        need(n == 2)
        return "duration=%d" % (c[0] * 256 + c[1]), c
    raise Wrong(0)


def write_element(ident, compat, contents):
    length = 1 + len(contents)
    if length < 128:
        lo = bytes([0x80 | length])
    else:
        lo = bytes([length & 0x7F, 0x80 | (length >> 7)])
    return bytes([ident]) + lo + bytes([0x80 | compat]) + contents


def constructor(ident, contents, head):
    """Contents of 4 or 11. head: octets from the identifier to the contents."""
    if not contents:
        raise Wrong(0)
    inner = []
    written = b""
    at = 0
    while at < len(contents):
        here = head + at
        try:
            i, comp, c, end = frame(contents, at)
        except Unframed:
            raise Wrong(here)
        if ident == 4:
            due = 5
        else:
            due = {0: 14, 1: 15}.get(len(inner))
        if i != due:
            raise Wrong(here)
        try:
            text, w = simple(i, c)
        except Wrong:
            raise Wrong(here)
        inner.append(text.split("=")[1])
        written += write_element(i, comp[0], w)
        at = end
    if ident == 4:
        return "codecs=" + ",".join(inner), written
    return "signal=" + ";".join(inner), written


def decode(ident, contents, head):
    if ident in (4, 11):
        return constructor(ident, contents, head)
    return simple(ident, contents)


def frame_all(data):
    out = []
    at = 0
    while at < len(data):
        ident, comp, contents, end = frame(data, at)
        out.append((at, end - at, ident, comp, contents))
        at = end
    return out


def instruct(first, possible):
    act = ("pass", "element", "data", "release")[first & 3]
    notice = (first >> 2) & 1
    if act == "pass" and not possible:
        act = ("release", "element", "data", "release")[(first >> 4) & 3]
        notice = (first >> 6) & 1
    return act, notice


def frame_data(data):
    """The elements of data, or the refusal."""
    if len(data) > 2048:
        return "refused-1"
    try:
        return frame_all(data)
    except Unframed:
        return "refused-2"


def elements(possible, entries, data):
    framed = frame_data(data)
    if isinstance(framed, str):
        return framed
    if len(framed) > entries:
        return "refused-3"
    parts, listed, outcomes = [], [], set()
    for start, length, ident, comp, contents in framed:
        head = length - len(contents)
        try:
            text, _ = decode(ident, contents, head)
        except Wrong as w:
            act, notice = instruct(comp[0], possible)
            outcomes.add(act)
            text = "unknown:%s:%d:%d,%d" % (act, notice, ident, w.index)
            if act in ("element", "data") and notice:
                listed.append("%d,%d" % (ident, w.index))
        parts.append(" %d/%d/%d/%s" % (ident, start, length, text))
    whole = "release" if "release" in outcomes else "data" if "data" in outcomes else "neither"
    return "%s %d%s listed=%s" % (whole, len(framed), "".join(parts), ";".join(listed) or "-")


def rewrite(buffer, compat, data):
    framed = frame_data(data)
    if isinstance(framed, str):
        return framed
    if not framed:
        return "refused-2"
    if len(framed) > 1:
        return "refused-3"
    start, length, ident, comp, contents = framed[0]
    try:
        _, w = decode(ident, contents, length - len(contents))
    except Wrong:
        return "unknown"
    if compat > 255:
        return "refused-5"
    out = write_element(ident, compat, w)
    if len(out) > 2048:
        return "refused-5"
    if len(out) > buffer:
        return "refused-4"
    return out.hex().upper()


def codec_list(framed):
    """The elements of a string that is one decoded codec list and nothing else -> the list's first compatibility
    octet, and for each codec its place, its whole length, its first compatibility octet and its contents; otherwise
    None."""
    if len(framed) != 1 or framed[0][2] != 4:
        return None
    _, length, _, compat, contents = framed[0]
    head = length - len(contents)
    try:
        constructor(4, contents, head)
    except Wrong:
        return None
    return compat[0], [(head + at, size, c[0], inner) for at, size, _, c, inner in frame_all(contents)]


def match(own_leads, buffer, offered, own):
    # a number is looked for in both strings before the next one, whichever leads
    framed = frame_data(offered), frame_data(own)
    for refusal in ("refused-1", "refused-2"):
        if refusal in framed:
            return refusal
    leading, other = codec_list(framed[0]), codec_list(framed[1])
    if leading is None or other is None:
        return "refused-14"
    if own_leads:
        leading, other = other, leading
    # the contents alone are compared: organisation, type and configuration octets
    known = {contents for _, _, _, contents in other[1]}
    common, seen = [], set()
    for codec in leading[1]:
        if codec[3] in known and codec[3] not in seen:
            common.append(codec)
            seen.add(codec[3])
    if not common:
        return "refused-15"
    chosen = "%d/%d " % common[0][:2]
    out = write_element(4, leading[0], b"".join(write_element(5, c, contents) for _, _, c, contents in common))
    # the choice needs no room, only the list does
    return chosen + (out.hex().upper() if len(out) <= buffer else "refused-4")


def tunnel(buffer, data):
    # both octets have to be there
    if len(data) < 2:
        return "refused-6"
    one, two = data[0], data[1]
    # the bits that never vary: 0.1..... and 0.......
    if one & 0x80 or not one & 0x20 or two & 0x80:
        return "refused-7"
    version, protocol = one & 0x1F, two & 0x3F
    # the peer reports an error: tell the user, send nothing back
    if one & 0x40 or two & 0x40:
        return "notice"
    # unknown version first, and then the protocol goes back unmarked
    if version != 0:
        reply = bytes([0x60, protocol])
    # unknown protocol
    elif protocol != 32:
        reply = bytes([0x20, 0x40 | protocol])
    # BCTP version 1 with IPBCP inside; what is left may be nothing
    else:
        return "message " + hexa(data[2:])
    # only a reply needs room
    if buffer < 2:
        return "refused-4"
    return "reply " + hexa(reply)


class Unreadable(Exception):
    """Number 9: the lines or the message type can't be made out."""


class Faulty(Exception):
    """Number 10: the type is known, another line is at fault."""


def right(cond):
    if not cond:
        raise Faulty


def number(t, low, high):
    """Decimal octets with no leading zero, in the range -> value, otherwise None."""
    if not t or any(o not in b"0123456789" for o in t):
        return None
    if t[0] == 0x30 and len(t) > 1:
        return None
    # more digits than the limit has is above it
    if len(t) > len(str(high)):
        return None
    value = int(t)
    return value if low <= value <= high else None


def ip4(t):
    """Dotted form -> four values, otherwise None."""
    parts = t.split(b".")
    if len(parts) != 4:
        return None
    values = [number(p, 0, 255) for p in parts]
    if None in values:
        return None
    # neither net 0 nor multicast and above
    if not 1 <= values[0] <= 223:
        return None
    return values


def groups(t):
    """Groups with single colons between them -> values; an empty text is no groups; otherwise None."""
    if not t:
        return []
    out = []
    for g in t.split(b":"):
        # one to four hexadecimal digits, zeros in front allowed
        if not 1 <= len(g) <= 4 or any(o not in b"0123456789abcdefABCDEF" for o in g):
            return None
        out.append(int(g, 16))
    return out


def ip6(t):
    """Colon form -> eight values, otherwise None."""
    sides = t.split(b"::")
    # the gap may be used once
    if len(sides) > 2:
        return None
    parts = [groups(s) for s in sides]
    if None in parts:
        return None
    if len(parts) == 1:
        values = parts[0]
        if len(values) != 8:
            return None
    else:
        # the gap covers at least one group
        gap = 8 - len(parts[0]) - len(parts[1])
        if gap < 1:
            return None
        values = parts[0] + [0] * gap + parts[1]
    # the unspecified address
    if not any(values):
        return None
    # multicast
    if values[0] >> 8 == 0xFF:
        return None
    return values


def show4(values):
    return ".".join("%d" % v for v in values)


def show6(values):
    # the longest run of zero groups is cut out, the leftmost of equals, a lone zero never
    best, length = 0, 1
    for i in range(8):
        n = 0
        while i + n < 8 and values[i + n] == 0:
            n += 1
        if n > length:
            best, length = i, n
    text = ["%x" % v for v in values]
    if length == 1:
        return ":".join(text)
    return ":".join(text[:best]) + "::" + ":".join(text[best + length:])


def read_address(family, t):
    """family: 4 or 6 -> address as written, otherwise None."""
    values = ip4(t) if family == 4 else ip6(t)
    if values is None:
        return None
    return show4(values) if family == 4 else show6(values)


def address(family, data):
    return read_address(family, data) or "no"


def split_lines(data):
    """The whole message -> its lines, ends taken off."""
    pieces = data.split(b"\n")
    # the last line is ended too; a message of nothing has no line
    if pieces.pop() != b"" or not pieces:
        raise Unreadable
    lines = []
    for l in pieces:
        # one CR right before the LF is part of the end
        if l.endswith(b"\r"):
            l = l[:-1]
        # letter, equals sign, then whatever is not 0 or a loose CR
        if len(l) < 2 or not 0x61 <= l[0] <= 0x7A or l[1] != 0x3D:
            raise Unreadable
        if 0 in l or 13 in l:
            raise Unreadable
        lines.append(l)
    return lines


IPBCP, RTPMAP, FMTP, PTIME = b"a=ipbcp:", b"a=rtpmap:", b"a=fmtp:", b"a=ptime:"
TYPES = (b"Request", b"Accepted", b"Confused", b"Rejected")


def version_and_type(lines):
    """From the first ipbcp line alone."""
    known = [l for l in lines if l.startswith(IPBCP)]
    if not known:
        raise Unreadable
    rest = known[0][len(IPBCP):]
    # a blank after the colon is optional
    if rest.startswith(b" "):
        rest = rest[1:]
    # version, blank, type, end of line
    words = rest.split(b" ")
    if len(words) != 2 or words[1] not in TYPES:
        raise Unreadable
    version = number(words[0], 0, 255)
    if version is None:
        raise Unreadable
    return version, words[1]


def tokens(t, count):
    """Exactly that many words, none of them empty, one blank between two."""
    words = t.split(b" ")
    right(len(words) == count and b"" not in words)
    return words


def known_line(l):
    """What a line is to the reader: its letter, an attribute it knows, or None if it is skipped."""
    if l[:1] in (b"i", b"u", b"e", b"p", b"b", b"z", b"k", b"r"):
        return None
    if l[:1] == b"a":
        # with the colon; other attributes are ignored
        for name in (IPBCP, RTPMAP, FMTP, PTIME):
            if l.startswith(name):
                return name
        return None
    return l[:1]


def description(lines):
    """The lines of a version 1 Request or Accepted -> the fields after the type."""
    kept = [(known_line(l), l) for l in lines]
    kept = [k for k in kept if k[0] is not None]
    # the seven that must be there, each once, in their order, ahead of the three attributes
    right([k[0] for k in kept[:7]] == [b"v", b"o", b"s", b"c", b"t", IPBCP, b"m"])
    v, o, s, c, t, _, m = [k[1][2:] for k in kept[:7]]
    # after them the three attributes and nothing else
    tail = kept[7:]
    right(all(k[0] in (RTPMAP, FMTP, PTIME) for k in tail))

    right(v == b"0")

    # origin: only the net type and the family are looked at
    words = tokens(o, 6)
    right(words[3] == b"IN" and words[4] in (b"IP4", b"IP6"))

    # connection: the address has to suit its own family word
    words = tokens(c, 3)
    right(words[0] == b"IN" and words[1] in (b"IP4", b"IP6"))
    family = words[1]
    where = read_address(4 if family == b"IP4" else 6, words[2])
    right(where is not None)

    # times: any number of digits, leading zeros too
    for run in tokens(t, 2):
        right(all(d in b"0123456789" for d in run))

    # media
    media, port, transport, payload = tokens(m, 4)
    right(number(port, 1, 65535) is not None)
    right(number(payload, 0, 127) is not None)

    # rtpmap: once at most, for the payload above, with some text
    maps = [l[len(RTPMAP):] for kind, l in tail if kind == RTPMAP]
    right(len(maps) <= 1)
    text = b""
    if maps:
        front = payload + b" "
        right(maps[0].startswith(front))
        text = maps[0][len(front):]
        right(text != b"")

    # fmtp: three at most, with any text
    formats = [l[len(FMTP):] for kind, l in tail if kind == FMTP]
    right(len(formats) <= 3)

    # both kinds share 256 octets, from the letter to the end of the text
    right(sum(len(l) for kind, l in tail if kind in (RTPMAP, FMTP)) <= 256)

    # ptime: once at most
    times = [number(l[len(PTIME):], 1, 255) for kind, l in tail if kind == PTIME]
    right(len(times) <= 1 and None not in times)

    return "%s %s %d %s %s %d %s %s %d" % (
        family.decode(), where, int(port), hexa(media), hexa(transport), int(payload), hexa(text),
        ",".join(f.hex().upper() or "empty" for f in formats) or "-", times[0] if times else 0)


def message(data):
    if len(data) > 512:
        return "refused-8"
    try:
        lines = split_lines(data)
        version, kind = version_and_type(lines)
    except Unreadable:
        return "refused-9"
    head = "%d %s" % (version, kind.decode())
    # other versions and the two short answers are not read further
    if version != 1 or kind in (b"Confused", b"Rejected"):
        return head
    try:
        return head + " " + description(lines)
    except Faulty:
        return "refused-10"


DEC = re.compile(rb"(?:0|[1-9][0-9]*)\Z")
HEX = re.compile(rb"(?:[0-9A-Fa-f]{2})+\Z")


# mode word -> how many fields follow it; the octets are the last, in match the last two
FIELDS = {b"elements": 3, b"rewrite": 3, b"match": 4, b"tunnel": 2, b"message": 1, b"address": 2}


def digits(field):
    """Digits, or the sign for none -> octets, otherwise None."""
    if field == b"-":
        return b""
    return bytes.fromhex(field.decode()) if HEX.match(field) else None


def answer(line):
    """line: octets without the newline."""
    if len(line) > 16383:
        return "bad-line"
    f = line.split(b" ")
    if len(f) != FIELDS.get(f[0], -1) + 1:
        return "bad-line"
    data = digits(f[-1])
    if data is None:
        return "bad-line"
    if f[0] == b"match":
        offered = digits(f[3])
        if f[1] not in (b"offered", b"own") or not DEC.match(f[2]) or offered is None:
            return "bad-line"
        return match(f[1] == b"own", int(f[2]), offered, data)
    if not all(DEC.match(n) for n in f[1:-1]):
        return "bad-line"
    if f[0] == b"elements":
        if f[1] not in (b"0", b"1"):
            return "bad-line"
        return elements(f[1] == b"1", int(f[2]), data)
    if f[0] == b"rewrite":
        return rewrite(int(f[1]), int(f[2]), data)
    if f[0] == b"tunnel":
        return tunnel(int(f[1]), data)
    if f[0] == b"message":
        return message(data)
    if f[1] not in (b"4", b"6"):
        return "bad-line"
    return address(int(f[1]), data)


if __name__ == "__main__":
    # a line may hold a number longer than Python reads by default
    if hasattr(sys, "set_int_max_str_digits"):
        sys.set_int_max_str_digits(0)
    text = sys.stdin.buffer.read()
    lines = text.split(b"\n")
    if lines[-1] == b"":
        lines.pop()
    sys.stdout.write("".join(answer(l) + "\n" for l in lines))
