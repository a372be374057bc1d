#!/usr/bin/env python3
"""wireshark.py [--messages] DIRECTORY [PACKET]: gives what the card writes to Wireshark's dissectors, and compares
what tshark shows, field by field, with what is expected.

DIRECTORY has inspect and tracedetail. PACKET is the program of packet.c; without it that part is left out, and the
output says so. What is expected never comes from the program that wrote it: an element is the input's as model.py
reads it, with the compatibility that was asked for; a reduced codec list is the one that model.py makes of the two
lists; a reply is what document 01 says of the octets received; a message follows from the trace's configuration,
commands and received octets, or from the message that PACKET was given, as model.py reads it.

With --messages nothing is dissected: the messages are printed for sdp.sh, one to a line, as they were written and as
they are expected, in hex. Ends with status 1 if something differs."""
import collections
import contextlib
import glob
import os
import random
import re
import struct
import subprocess
import sys
import tempfile
import xml.etree.ElementTree as ET

import model

HERE = os.path.dirname(os.path.abspath(__file__))
VECTORS = os.path.join(HERE, "vectors")

# What is not compared, and why it is the dissector that is wrong or silent. Q.765.5 gives every element, inner ones
# too, a length of one octet or two that counts compatibility and contents: where it ends never depends on its value.
# The octets of all data are compared in any case; this is only about what the dissector's fields show.
FAULTS = {
    # The figure of a diagnostic has the most significant octet of the index first.
    "index": "indices of diagnostics as numbers: shown least significant octet first, so their octets are compared",
    # Numbers have their most significant octet first; document 01 says so of this one.
    "duration": "durations as numbers: shown least significant octet first, so their octets are compared",
    # The same; the card carries octets.
    "local": "local ids as numbers: shown least significant octet first, so their octets are compared",
    # The local id is a binary number without a length of its own: it takes the rest of the element.
    "local length": "local ids of other than four octets, past the fourth octet: it takes four, whatever the length",
    # The length counts neither identifier nor length octets, which here are three together; it adds two.
    "whole": "ends of elements with a two-octet length: it shows the whole one octet short, but goes on behind it",
    # The field has up to four octets.
    "backbone": "backbone connections of 1 to 3 octets as numbers: it reads four, so the octets are compared",
    # The length counts compatibility and organisation; the rest is two octets less, and it takes one less.
    "organisation": "codecs of organisation 0 as numbers: it takes an octet too many, so their octets are compared",
    # Document 01 has any number of configuration octets carried; the length says where the next element is.
    "configuration": "codecs behind the configuration octets that it knows: it goes on there, whatever the length",
    # A codec's length is like any other's; it has a function of its own for codecs, which counts on one octet.
    "codec length": "places of identifier and length of codecs with a two-octet length: it looks an octet behind them",
    "inner length": "codec lists from a codec with a two-octet length on: it takes the second octet for the length",
    # A report has as many diagnostics as its length has room for.
    "diagnostics": "diagnostics of reports with over 255, past their number modulo 256: it counts in one octet",
    # The card takes 1 to 20 octets, and carries them as they are.
    "inside": "what follows addresses of AFI 35 or 45 that are no whole ICP or E.164 address: it gives up inside",
    # Document 01 asks for one octet; nothing says that there are two indicators in it.
    "control": "what follows control information of one octet: it takes the next element's first for the second",
    # The card does not judge what it carries here.
    "text": "control information for IPBCP, past its indicators, that is no message as the card writes them",
    # RFC 4566 has no quotation: a line ends in CRLF, whatever is in it.
    "quote": "lines behind a line with a lone quotation mark: it looks for the next mark before a line's end",
    # The card carries the peer's or the configuration's texts; the dissector complains of them by RFC 4566.
    "attribute": "the inside of rtpmap and fmtp lines that say no codec or format: the line's octets are compared",
}

Item = collections.namedtuple("Item", "name pos size octets number")


def brief(x):
    """A value for a reader: octets as text or digits, and not too many; a field as its name, place, size, octets and
    number."""
    if isinstance(x, bytes):
        return repr(x.decode())[:80] if re.match(rb"[ -~]{3,}\Z", x) else x.hex().upper()[:80] or "-"
    if isinstance(x, tuple):
        return " ".join(brief(y) for y in x if y is not None)
    return str(x)[:200]


class Report:
    """How many of one kind agree, what was not compared, and the first that differs."""

    def __init__(self, kind, word="written"):
        self.kind = kind
        self.word = word
        self.agree = 0
        self.differ = 0
        self.segmented = 0
        self.notes = collections.Counter()

    def compare(self, what, want, got):
        """want and got: the same kind of value; a list is shown from the first place that differs."""
        if want == got:
            self.agree += 1
            return
        self.differ += 1
        if self.differ > 1:
            return
        if isinstance(want, list):
            at = next((i for i, (w, g) in enumerate(zip(want, got)) if w != g), min(len(want), len(got)))
            want, got = (x[at] if at < len(x) else "nothing more" for x in (want, got))
        print("%s: %s differs\n  want %s\n  got  %s" % (self.kind, what, brief(want), brief(got)))

    def end(self):
        """Prints the count, and says whether all agree."""
        total = self.agree + self.differ
        print("%s: %d %s, %d agree" % (self.kind, total, self.word, self.agree))
        if self.segmented:
            print("  in segments: %d (over the 250 octets of one APM message)" % self.segmented)
        for name, count in sorted((+self.notes).items()):
            print("  skipped: %d (%s)" % (count, FAULTS[name]))
        return self.differ == 0 and total > 0


# Captures and what tshark makes of them.

# Where a PDU begins in its frame: after a tag with the dissector's name, of four letters, and a tag that ends them.
PDU = 12


def write_capture(path, name, pdus):
    """A classic capture of exported PDUs (link type 252), each for the dissector of that name."""
    tags = struct.pack(">HH4sHH", 12, 4, name.encode().ljust(4, b"\0"), 0, 0)
    with open(path, "wb") as f:
        f.write(struct.pack("<IHHiIII", 0xA1B2C3D4, 2, 4, 0, 0, 65535, 252))
        for i, pdu in enumerate(pdus):
            frame = tags + pdu
            f.write(struct.pack("<IIII", i, 0, len(frame), len(frame)) + frame)


def dissect(name, pdus):
    """What tshark shows of each PDU, as the tree of its PDML. If there are fewer of these than PDUs, the program ends
    after the last."""
    with tempfile.TemporaryDirectory() as work:
        path = os.path.join(work, "capture")
        write_capture(path, name, pdus)
        command = ["tshark", "-n", "-o", "isup.defragment_apm:TRUE", "-r", path, "-T", "pdml"]
        run = subprocess.Popen(command, stdout=subprocess.PIPE, stderr=subprocess.DEVNULL)
        count = 0
        for _, node in ET.iterparse(run.stdout):
            if node.tag == "packet":
                count += 1
                yield node
                node.clear()
        if run.wait() != 0 or count != len(pdus):
            sys.exit("tshark read %d of %d packets of %s" % (count, len(pdus), name))


def number_of(show):
    """The number that a field shows, if it shows one."""
    if show in ("True", "False"):
        return int(show == "True")
    try:
        return int(show, 0)
    except ValueError:
        return None


def item_of(node):
    """A field: its place and size, the octets that it is read from, and its number."""
    digits = node.get("unmaskedvalue") or node.get("value") or ""
    return Item(node.get("name"), int(node.get("pos")), int(node.get("size")), bytes.fromhex(digits),
                number_of(node.get("show") or ""))


def complaints(tree):
    """The names of what tshark complains of in a tree."""
    names = {n.get("name") for n in tree.iter() if (n.get("name") or "").startswith("_ws.")}
    return {n for n in names if not n.startswith("_ws.expert")}


def looked_at(want, got):
    """What was shown, with what is not compared (None) set as expected. Only as many octets are compared as are
    expected, so that a field that runs past its element still shows the element's."""
    if want.name != got.name:
        return got
    octets = None if want.octets is None else got.octets[:len(want.octets)]
    return got._replace(octets=octets, size=got.size if want.size is not None else None,
                        pos=got.pos if want.pos is not None else None,
                        number=got.number if want.number is not None else None)


# Elements.

ELEMENT = "element"
IDENTIFIER, LENGTH = "bicc.bat_ase_identifier", "bicc.bat_ase_length_indicator"
EXTENSION = "isup.extension_ind"
# The parts of a compatibility octet: name, lowest bit, mask. No field shows bit 4; the whole octet is compared with
# each, so that it is seen too. Further octets, which the dissector does not look for, are never written.
COMPATIBILITY = (
    (EXTENSION, 7, 1),
    ("bicc.bat_ase_Send_notification_ind_for_pass_on_not_possible", 6, 1),
    ("bicc.bat_ase_Instruction_ind_for_pass_on_not_possible", 4, 3),
    ("bicc.bat_ase_Send_notification_ind_for_general_action", 2, 1),
    ("bicc.bat_ase_Instruction_ind_for_general_action", 0, 3),
)
VERSION_BITS = (("bicc.bat_ase_BCTP_Version_Indicator", 0, 31), ("bicc.bat_ase_BCTP_BVEI", 6, 1))
PROTOCOL_BITS = (("bicc.bat_ase_BCTP_Tunnelled_Protocol_Indicator", 0, 63), ("bicc.bat_ase_BCTP_tpei", 6, 1))
RATES = ("12_2", "10_2", "7_95", "7_40", "6_70", "5_90", "5_15", "4_75")
# Elements of one number: the field that shows it.
NUMBERS = {
    1: "bicc.bat_ase_bat_ase_action_indicator_field",
    7: "bat_ase.char",
    14: "bat_ase.signal_type",
}
# What the dissectors of the addresses and texts inside show, which are not the element's fields.
INSIDE = ("x213.", "nsap.", "e164.", "isup.idp", "isup.idi", "isup.dsp", "_ws.")

# An action, 0, put after an element if the dissector reads past the element's end.
TAIL = bytes.fromhex("01828000")

Element = collections.namedtuple("Element", "identifier compatibility value contents inner")


def octets_of(digits):
    return b"" if digits == "-" else bytes.fromhex(digits)


def element_of(identifier, compatibility, contents, head):
    """An element as model.py reads its contents: the value's text, the contents to be written, and inner elements."""
    text, written = model.decode(identifier, contents, head)
    inner, at = [], 0
    while identifier in (4, 11) and at < len(contents):
        i, compat, c, end = model.frame(contents, at)
        inner.append(element_of(i, compat[0], c, 0))
        at = end
    return Element(identifier, compatibility | 0x80, text.split("=")[1], written, inner)


class Layout:
    """What the dissector should show of elements laid end to end from a place on."""

    def __init__(self, at):
        self.at = at
        self.items = []
        self.notes = []
        self.complaints = set()
        self.lost = False  # it goes on from a wrong place
        self.need = 0  # octets that it reads past the end
        self.data = b""

    def show(self, name, octets, number=None, size=None):
        self.items.append(Item(name, self.at, len(octets) if size is None else size, octets, number))

    def take(self, name, octets, number=None):
        self.show(name, octets, number)
        self.at += len(octets)

    def take_number(self, name, number, octets=1):
        self.take(name, number.to_bytes(octets, "big"), number)

    def take_bits(self, octet, parts):
        for name, low, mask in parts:
            self.show(name, bytes([octet]), octet >> low & mask)
        self.at += 1

    def lose(self, note):
        self.notes.append(note)
        self.lost = True

    def element(self, e):
        """A whole element; the value's fields follow, those of inner elements too."""
        if self.lost:
            return
        self.need = 0
        whole = model.write_element(e.identifier, e.compatibility, e.contents)
        end, size = self.at + len(whole), len(whole)
        if len(e.contents) > 126:
            self.notes.append("whole")
            size -= 1
        # Before an element it shows bit 8 of the first length octet.
        self.items.append(Item(EXTENSION, self.at + 1, 1, whole[1:2], whole[1] >> 7))
        self.items.append(Item(ELEMENT, self.at, size, None, None))
        self.header(e)
        getattr(self, "value_%d" % e.identifier, self.value_number)(e)
        self.at = self.at if self.lost else end

    def header(self, e):
        """Identifier, length and compatibility. A codec's are shown by a function of its own, in another order."""
        length = 1 + len(e.contents)
        octets = model.write_element(e.identifier, e.compatibility, e.contents)[1:-length]
        if e.identifier == 5 and len(octets) == 2:
            self.notes.append("codec length")
            self.items.append(Item(IDENTIFIER, None, 1, None, 5))
            self.items.append(Item(LENGTH, None, 1, None, length))
            self.at += 3
        else:
            self.take_number(IDENTIFIER, e.identifier)
            self.take(LENGTH, octets, length)
        self.take_bits(e.compatibility, COMPATIBILITY[::-1] if e.identifier == 5 else COMPATIBILITY)

    def value_number(self, e):
        self.take_number(NUMBERS[e.identifier], int(e.value))

    def value_2(self, e):
        octets = octets_of(e.value)
        if len(octets) == 4:
            self.take("bat_ase.bncid", octets, int.from_bytes(octets, "big"))
            return
        self.notes.append("backbone")
        self.take("bat_ase.bncid", octets)
        self.need = 4 - len(octets)

    def value_3(self, e):
        octets = octets_of(e.value)
        self.take("bat_ase.biwfa", octets)
        # It looks inside these two formats for 20 octets, and for decimal digits after 45.
        digits = octets[1:9].hex().isdecimal()
        if octets[0] in (0x35, 0x45) and (len(octets) < 20 or octets[0] == 0x45 and not digits):
            self.lose("inside")

    def value_4(self, e):
        for codec in e.inner:
            if len(codec.contents) > 126:
                self.lose("inner length")
            if self.lost:
                return
            self.header(codec)
            self.value_5(codec)

    def value_5(self, e):
        organisation, rest = e.value.split(".")
        self.take_number("bat_ase.organization_identifier_subfield", int(organisation))
        getattr(self, "codec_%s" % organisation)(octets_of(rest))

    def codec_0(self, octets):
        self.notes.append("organisation")
        self.show("isup.unknown_organisation_identifier", octets, size=len(octets) + 1)
        self.at += len(octets)
        self.need = 1
        if len(octets) > 3:
            self.complaints |= {"_ws.type_length.mismatch", "_ws.malformed"}

    def codec_1(self, octets):
        """ITU-T: the type, and one octet of configuration for those types that have rates to choose from."""
        self.take_number("bat_ase.ITU_T_codec_type_subfield", octets[0])
        known = 1 if 8 <= octets[0] <= 12 else 0
        if octets[1:1 + known]:
            self.take_number("isup.configuration_data", octets[1])
        if len(octets) > 1 + known:
            self.lose("configuration")

    def codec_2(self, octets):
        """ETSI: the type, two sets of rates, and an octet of two fields."""
        self.take_number("bat_ase.ETSI_codec_type_subfield", octets[0])
        for name, octet in zip(("bat_ase.acs", "bat_ase.scs"), octets[1:3]):
            self.show(name, bytes([octet]), octet)
            self.take_bits(octet, [("%s.%s" % (name, r), 7 - i, 1) for i, r in enumerate(RATES)])
        if octets[3:]:
            self.take_bits(octets[3], (("bat_ase.optimisation_mode", 3, 1), ("bat_ase.macs", 0, 7)))
        if octets[4:]:
            self.lose("configuration")

    def value_6(self, e):
        reason, *diagnostics = e.value.split(";")
        self.take_number("bat_ase.Comp_Report_Reason", int(reason))
        for n, diagnostic in enumerate(diagnostics):
            if n == len(diagnostics) % 256 and len(diagnostics) > 255:
                self.lose("diagnostics")
                return
            identifier, index = diagnostic.split(",")
            self.take_number("bat_ase.Comp_Report_ident", int(identifier))
            self.take("bat_ase.Comp_Report_diagnostic", int(index).to_bytes(2, "big"))
            self.notes.append("index")

    def value_8(self, e):
        octets = octets_of(e.value)
        self.take_bits(octets[0], VERSION_BITS)
        if len(octets) == 1:
            self.need = 1
            self.lose("control")
            return
        self.take_bits(octets[1], PROTOCOL_BITS)
        if octets[1] & 63 != 32:
            self.take("isup.tunnelled_protocol_data", octets[2:])
            return
        self.items.append(Item("sdp", self.at, len(octets) - 2, None, None))
        m = described(octets[2:])
        if m is None or text(m) != octets[2:] or not all(is_regular(l) for l in lines_of(m)):
            self.lose("text")
            return
        for line in lines_of(m):
            own, parts = expected_line(line, self.at)
            self.items += [own] + parts
            self.at += len(line) + 2

    def value_9(self, e):
        # The bits that are not read are written 0.
        self.take_bits(int(e.value), (("bat_ase.bearer_control_tunneling", 0, 1),))

    def value_10(self, e):
        network, local = (octets_of(t) for t in e.value.split("."))
        self.take_number("isup.network_id_length_indicator", len(network))
        if network:
            self.take("isup.network_id", network)
        self.notes.append("local")
        self.show("bat_ase.Local_BCU_ID", local[:4], size=4)
        self.at += 4
        if len(local) != 4:
            self.need = max(0, 4 - len(local))
            self.lose("local length")

    def value_11(self, e):
        for inner in e.inner:
            self.element(inner)

    def value_12(self, e):
        self.take_bits(0x80 | int(e.value), (("bat_ase.late_cut_through_cap_ind", 0, 1),))

    def value_13(self, e):
        for octet in octets_of(e.value):
            self.take_number("bat_ase.bearer_redir_ind", octet)

    def value_15(self, e):
        self.take("bat_ase.duration", int(e.value).to_bytes(2, "big"))
        self.notes.append("duration")


def encode_length(rng, length):
    """A length in a form that is read, the longer one too, with any ignored bits."""
    if length < 128 and rng.random() < 0.7:
        return bytes([0x80 | length])
    return bytes([length & 127, 0x80 | rng.randrange(8) << 4 | length >> 7])


def encode(rng, identifier, contents):
    """An element to be read: any form of its length, one compatibility octet, or more if there is room."""
    more = rng.choice((0, 0, 0, 1, 2)) if len(contents) < 2000 else 0
    compat = bytes(rng.randrange(128) for _ in range(more)) + bytes([0x80 | rng.randrange(128)])
    body = compat + contents
    return bytes([identifier]) + encode_length(rng, len(body)) + body


def codecs(rng):
    """Contents of codecs: each organisation and ITU-T type, and configurations of several lengths."""
    out = [b"\0" + rng.randbytes(n) for n in (1, 2, 3, 4, 5, 20, 124, 125, 126, 127, 200)]
    for kind in range(13):
        out += [bytes([1, kind]) + rng.randbytes(n) for n in ((0,) if 1 <= kind <= 6 else (0, 1, 1, 2, 5))]
    for kind in list(range(16)) + [255]:
        out += [bytes([2, kind]) + rng.randbytes(n) for n in (0, 1, 2, 3, 4)]
    return out + [bytes([2, 0]) + rng.randbytes(n) for n in (124, 125, 200)]


def lists(rng):
    """Contents of codec lists and signals: inner elements of every kind, few and many."""
    out, known = [], codecs(rng)
    for count in (1, 1, 2, 2, 3, 5, 8, 13, 25, 26, 60):
        for _ in range(3):
            out.append((4, b"".join(encode(rng, 5, rng.choice(known)) for _ in range(count))))
        short = [c for c in known if len(c) <= 3 and c[0] != 1 or len(c) == 2]
        out.append((4, b"".join(encode(rng, 5, rng.choice(short)) for _ in range(count))))
    for kind in list(range(16)) + list(range(64, 84)):
        out.append((11, encode(rng, 14, bytes([kind]))))
        out.append((11, encode(rng, 14, bytes([kind])) + encode(rng, 15, rng.randbytes(2))))
    return [(i, c) for i, c in out if len(c) < 2040]


def values(rng):
    """Identifiers and contents: every value shape, and lengths on both sides of each limit."""
    out = [(1, bytes([n])) for n in range(25)] + [(7, bytes([n])) for n in range(5)]
    out += [(2, rng.randbytes(n)) for n in (1, 2, 3, 4) for _ in range(3)]
    for n in range(1, 21):
        out += [(3, bytes([afi]) + rng.randbytes(n - 1)) for afi in (0x35, 0x45, 0x47, 0x49, rng.randrange(256))]
        out.append((3, bytes([0x45] + [rng.randrange(10) * 17 for _ in range(n - 1)])))
    out += [(5, c) for c in codecs(rng)] + lists(rng)
    out += [(6, rng.randbytes(1 + 3 * n)) for n in (0, 1, 2, 3, 5, 41, 42, 43, 84, 255, 256, 300, 681)]
    out += [(9, bytes([n])) for n in (0, 1, 2, 3, 254, 255)]
    for n in (1, 2, 3, 10, 124, 125, 126, 127, 128, 129, 245, 246, 247, 500, 1000, 2043, 2044):
        out += [(8, rng.randbytes(n)), (8, (b" !" + rng.randbytes(n))[:n])]
    out += [(8, b"  " + text(m)) for m in messages(rng)[:40]]
    for network in (0, 1, 2, 5, 117, 118, 119, 120, 121, 122, 255):
        out += [(10, bytes([network]) + rng.randbytes(network + n)) for n in (1, 2, 3, 4, 4, 4, 5, 9)]
    out += [(12, bytes([0x80 | n])) for n in (0, 1, 2, 127)] + [(12, bytes([1, 0, 0x80])), (12, bytes([2, 0x81]))]
    out += [(13, bytes([n])) for n in range(12)]
    out += [(13, bytes(rng.randrange(12) for _ in range(n))) for n in range(2, 17)]
    out += [(14, bytes([n])) for n in list(range(16)) + list(range(64, 84))]
    out += [(15, n.to_bytes(2, "big")) for n in (0, 1, 255, 256, 300, 65535)]
    return out


# One small value of each identifier, to be written with every compatibility octet.
SMALL = {1: "08", 2: "01020304", 3: "490102", 4: "0583800101", 5: "0101", 6: "01E00102", 7: "04", 8: "2021AB", 9: "01",
         10: "02AABB01020304", 11: "0E828040", 12: "81", 13: "0102", 14: "40", 15: "012C"}


def rewrite_lines():
    """Lines of inspect's `rewrite`: the vectors, and those made up here."""
    with open(os.path.join(VECTORS, "rewrite.in")) as f:
        lines = f.read().split("\n")[:-1]
    rng = random.Random(1)
    for identifier, contents in values(rng):
        lines.append("2048 %d %s" % (rng.randrange(256), encode(rng, identifier, contents).hex().upper()))
    for identifier, digits in SMALL.items():
        for compatibility in range(256):
            element = encode(rng, identifier, bytes.fromhex(digits))
            lines.append("2048 %d %s" % (compatibility, element.hex().upper()))
    return lines


def match_lines():
    """Lines of inspect's `match`: the vectors, and lists made up here of codecs of every kind: one, and several of
    which some are common."""
    with open(os.path.join(VECTORS, "match.in")) as f:
        lines = f.read().split("\n")[:-1]
    rng = random.Random(3)
    known = codecs(rng)
    pairs = [([c], [c]) for c in known]
    for count in (2, 3, 5, 8, 13, 25, 60):
        for _ in range(20):
            some = rng.choices(known, k=count)
            pairs.append((some, rng.choices(some, k=rng.randint(1, count)) + rng.choices(known, k=3)))
    for n, pair in enumerate(pairs):
        whole = [encode(rng, 4, b"".join(encode(rng, 5, c) for c in some)).hex().upper() for some in pair]
        lines.append("%s 2048 %s %s" % (("offered", "own")[n % 2], *whole))
    return lines


def run_lines(program, lines):
    """What a program answers to lines, one for each."""
    run = subprocess.run([program], input="".join(l + "\n" for l in lines), capture_output=True, text=True)
    answers = run.stdout.split("\n")[:-1]
    if len(answers) != len(lines):
        sys.exit("%s answered %d of %d lines" % (program, len(answers), len(lines)))
    return answers


def segments(data, reference):
    """The APM messages that carry application data. One has a length octet for its parameter, so at most 250 octets of
    data; more goes in segments, which the dissector puts together again."""
    cic, message = bytes(4), bytes([0x41, 1, 0x78])
    if len(data) <= 250:
        head = bytes.fromhex("8583C00000")
        return [cic + message + bytes([5 + len(data)]) + head + data + b"\0"]
    parts = [data[i:i + 240] for i in range(0, len(data), 240)]
    out = []
    for i, part in enumerate(parts):
        first = 0x40 if i == 0 else 0
        head = bytes([0x85, 0x83, first | len(parts) - 1 - i, 0x80 | reference % 128, 0, 0])
        out.append(cic + message + bytes([6 + len(part)]) + head + part + b"\0")
    return out


def shown_elements(packet):
    """What is shown of application data, in its order, and the data as a whole."""
    for node in packet.iter("field"):
        if (node.get("show") or "").startswith("Bearer Association Transport"):
            return [i for child in node for i in shown_below(child)], item_of(node).octets
    return [], b""


def shown_below(node):
    name = node.get("name") or ""
    if name.startswith(INSIDE):
        return
    yield item_of(node)._replace(name=name or ELEMENT)
    for child in node:
        yield from shown_below(child)


def lay(elements, at):
    """The layout of elements, and the data as a whole."""
    layout = Layout(at)
    for e in elements:
        layout.element(e)
    layout.data = b"".join(model.write_element(*e[:2], e.contents) for e in elements)
    return layout


def plan(written):
    """Strings of data, each with its elements: every element by itself, then all of them laid end to end."""
    tail = Element(1, 0x80, "0", b"\0", [])
    strings = []
    for e, octets in written:
        behind = lay([e], 0).need > 0
        strings.append((octets + TAIL, [e, tail]) if behind else (octets, [e]))
    data, elements = b"", []
    for e, octets in written:
        limit = 2040 if len(strings) % 5 == 0 else 246
        if elements and (len(data) + len(octets) > limit or lay(elements, 0).lost):
            strings.append((data + TAIL, elements + [tail]))
            data, elements = b"", []
        data, elements = data + octets, elements + [e]
    strings.append((data + TAIL, elements + [tail]))
    return strings


def written_elements(inspect, report):
    """The elements that inspect writes, with those expected; if it writes none, it says what model.py does."""
    lines = rewrite_lines()
    written = []
    for line, answer in zip(lines, run_lines(inspect, ["rewrite " + l for l in lines])):
        buffer, compatibility, digits = line.split(" ")
        data = octets_of(digits)
        want = model.rewrite(int(buffer), int(compatibility), data)
        if want.startswith(("refused", "unknown")) or answer.startswith(("refused", "unknown")):
            report.compare("rewrite " + line, want, answer)
            continue
        identifier, _, contents, _ = model.frame(data, 0)
        e = element_of(identifier, int(compatibility), contents, len(data) - len(contents))
        written.append(("rewrite " + line, e, bytes.fromhex(answer)))
    return written


def written_lists(inspect, report):
    """The reduced codec lists that inspect writes, with those expected; its other answers are what model.py says."""
    lines = match_lines()
    written = []
    for line, answer in zip(lines, run_lines(inspect, ["match " + l for l in lines])):
        lead, buffer, offered, own = line.split(" ")
        want = model.match(lead == "own", int(buffer), octets_of(offered), octets_of(own))
        found = [re.fullmatch("([0-9]+/[0-9]+) ((?:[0-9A-F]{2})+)", text) for text in (want, answer)]
        if None in found or found[0][1] != found[1][1]:
            report.compare("match " + line, want, answer)
            continue
        data = bytes.fromhex(found[0][2])
        identifier, compatibility, contents, _ = model.frame(data, 0)
        e = element_of(identifier, compatibility[0], contents, len(data) - len(contents))
        written.append(("match " + line, e, bytes.fromhex(found[1][2])))
    return written


def agreeable(layout, packet):
    """What a packet should show and what it shows, as lists that are equal if they agree: fields, complaints, data."""
    got, data = shown_elements(packet)
    want = layout.items
    got = [looked_at(w, g) for w, g in zip(want, got)] + got[len(want):]
    if layout.lost:
        return want + [layout.data], got[:len(want)] + [data]
    return want + sorted(layout.complaints) + [layout.data], got + sorted(complaints(packet)) + [data]


def compare_written(kind, written):
    """Each element in a message of its own, and many in one."""
    alone, together = Report(kind + ", one by one"), Report(kind + ", end to end", "strings")
    strings = plan([(e, octets) for _, e, octets in written])
    pdus, wanted = [], {}
    for n, (data, elements) in enumerate(strings):
        parts = segments(data, n)
        (alone if n < len(written) else together).segmented += len(parts) > 1
        pdus += parts
        wanted[len(pdus) - 1] = (n, lay(elements, PDU + 13 if len(parts) == 1 else 0))
    for i, packet in enumerate(dissect("bicc", pdus)):
        if i not in wanted:
            continue
        n, layout = wanted[i]
        want, got = agreeable(layout, packet)
        if n < len(written):
            alone.notes.update(layout.notes)
            alone.compare(written[n][0], want, got)
        else:
            together.compare("data " + strings[n][0].hex().upper(), want, got)
    return [alone, together]


def compare_elements(directory):
    """Elements that `rewrite` writes, and the codec lists that `match` does."""
    inspect = os.path.join(directory, "inspect")
    refused, unmatched = Report("rewrite, nothing written", "lines"), Report("match, nothing written", "lines")
    elements = compare_written("elements", written_elements(inspect, refused))
    lists = compare_written("reduced codec lists", written_lists(inspect, unmatched))
    return [refused] + elements + [unmatched] + lists


# Tunnel packets.

def reply_to(buffer, data):
    """Document 01's rule on the two octets of a packet: the word, or what a reply's four parts are."""
    if len(data) < 2:
        return "refused-6"
    one, two = data[:2]
    if one & 0xA0 != 0x20 or two & 0x80:
        return "refused-7"
    if (one | two) & 0x40:
        return "notice"
    if one & 31 == 0 and two & 63 == 32:
        return "message"
    if buffer < 2:
        return "refused-4"
    return (1, 0, 0, two & 63) if one & 31 else (0, 0, 1, two & 63)


def bits_of(parts):
    """What the dissector should show of a reply: each part. It shows no fixed bit and judges none, so the two octets
    that the parts are read from are compared with each."""
    version_error, version, protocol_error, protocol = parts
    octets = bytes([0x20 | version_error << 6 | version, protocol_error << 6 | protocol])
    names = ("bctp.bvei", "bctp.bvi", "bctp.tpei", "bctp.tpi")
    return [Item(name, PDU, 2, octets, part) for name, part in zip(names, parts)]


def tunnel_lines():
    with open(os.path.join(VECTORS, "tunnel.in")) as f:
        lines = f.read().split("\n")[:-1]
    return lines + ["2 %04X" % pair for pair in range(65536)]


def compare_replies(directory):
    """The replies of inspect's `tunnel` to the vectors, and to every pair of first octets."""
    other, replies = Report("tunnel, no reply", "lines"), Report("tunnel replies")
    lines = tunnel_lines()
    written = []
    for line, answer in zip(lines, run_lines(os.path.join(directory, "inspect"), ["tunnel " + l for l in lines])):
        buffer, digits = line.split(" ")
        want = reply_to(int(buffer), octets_of(digits))
        if isinstance(want, tuple) and answer.startswith("reply "):
            written.append((line, want, bytes.fromhex(answer[6:])))
        else:
            other.compare("tunnel " + line, want, answer.split(" ")[0])
    pdus = [octets for _, _, octets in written]
    for packet, (line, want, octets) in zip(dissect("bctp", pdus), written):
        proto = next(p for p in packet.iter("proto") if p.get("name") == "bctp")
        got = [item_of(n) for n in proto.iter("field")] + sorted(complaints(packet)) + [len(octets)]
        replies.compare("tunnel " + line, bits_of(want) + [2], got)
    return [other, replies]


# Messages.

Message = collections.namedtuple("Message", "kind family address port media transport payload rtpmap fmtp ptime")


def described(data):
    """A Request or Accepted as model.py reads it, or None."""
    answer = model.message(data).split(" ")
    if len(answer) != 11:
        return None
    _, kind, family, address, port, media, transport, payload, rtpmap, fmtp, ptime = answer
    formats = [] if fmtp == "-" else [b"" if t == "empty" else bytes.fromhex(t) for t in fmtp.split(",")]
    return Message(kind.encode(), family.encode(), address.encode(), int(port), octets_of(media), octets_of(transport),
                   int(payload), octets_of(rtpmap), formats, int(ptime))


def lines_of(m):
    """The lines of a message that is to be written, in document 01's order."""
    out = [b"v=0", b"o=- 0 0 IN %s %s" % (m.family, m.address), b"s= ", b"c=IN %s %s" % (m.family, m.address),
           b"t=0 0", b"a=ipbcp:1 " + m.kind]
    if m.kind in (b"Rejected", b"Confused"):
        return out
    out.append(b"m=%s %d %s %d" % (m.media, m.port, m.transport, m.payload))
    if m.rtpmap:
        out.append(b"a=rtpmap:%d %s" % (m.payload, m.rtpmap))
    out += [b"a=fmtp:" + t for t in m.fmtp]
    if m.ptime:
        out.append(b"a=ptime:%d" % m.ptime)
    return out


def text(m):
    return b"".join(line + b"\r\n" for line in lines_of(m))


# A line's letter or attribute: the field of the whole line, then the fields of its parts, in order.
PARTS = {
    b"v": ("sdp.version", ()),
    b"o": ("sdp.owner", tuple("sdp.owner." + n for n in (
        "username", "sessionid", "version", "network_type", "address_type", "address"))),
    b"s": ("sdp.session_name", ()),
    b"c": ("sdp.connection_info", tuple("sdp.connection_info." + n for n in (
        "network_type", "address_type", "address"))),
    b"t": ("sdp.time", ("sdp.time.start", "sdp.time.stop")),
    b"ipbcp": ("sdp.session_attr", ("sdp.session_attr.field", "sdp.ipbcp.version", "sdp.ipbcp.command")),
    b"m": ("sdp.media", ("sdp.media.media", "sdp.media.port_string", "sdp.media.proto", "sdp.media.format")),
    b"rtpmap": ("sdp.media_attr", ("sdp.media_attribute.field", "sdp.media.format", "sdp.mime.type",
                                   "sdp.sample_rate")),
    b"fmtp": ("sdp.media_attr", ("sdp.media_attribute.field", "sdp.media.format", "sdp.fmtp.parameter")),
    b"ptime": ("sdp.media_attr", ("sdp.media_attribute.field", "sdp.media_attribute.value")),
}
# What separates the words of a line.
WORDS = {b"rtpmap": rb"[^:/ ]+", b"fmtp": rb"[^: ]+", b"ipbcp": rb"[^: ]+", b"ptime": rb"[^:]+"}
# An rtpmap with a codec and a clock rate, and an fmtp with a format and one parameter.
REGULAR = {b"rtpmap": re.compile(rb"a=rtpmap:\d+ [\w-]+/\d+\Z"), b"fmtp": re.compile(rb"a=fmtp:\d{1,3} [\w=,-]+\Z")}


def kind_of(line):
    return line[2:].split(b":")[0] if line[:1] == b"a" else line[:1]


def is_regular(line):
    """Whether the dissector should read the inside of an rtpmap or fmtp line, or the line is another."""
    kind = kind_of(line)
    return kind not in REGULAR or REGULAR[kind].match(line) is not None


def expected_line(line, at):
    """The fields of one line at a place: the line's own, and its parts' if the line is regular, otherwise None."""
    kind = kind_of(line)
    name, parts = PARTS[kind]
    own = Item(name, at, len(line), line, None)
    if not is_regular(line):
        return own, None
    words = [] if kind in b"vs" else re.finditer(WORDS.get(kind, rb"[^ ]+"), line[2:])
    out = [Item(part, at + 2 + w.start(), len(w.group()), w.group(), None) for part, w in zip(parts, words)]
    if kind == b"m":
        out.insert(2, out[1]._replace(name="sdp.media.port", number=int(out[1].octets)))
    return own, out


def shown_line(node, want):
    """The same of a line that is shown, with the complaints about it."""
    own, parts = want
    got = [item_of(n) for n in node.iter("field") if n is not node and not n.get("name").startswith("_ws.")]
    if parts is None:
        return looked_at(own, item_of(node)), None
    bad = sorted(complaints(node))
    return looked_at(own, item_of(node)), [looked_at(w, g) for w, g in zip(parts, got)] + got[len(parts):] + bad


def flat(lines):
    return [item for own, parts in lines for item in [own] + (parts or [])]


def compare_message(report, what, packet, m, at, octets):
    """One message that is shown from a place on. The lines' places show that they follow each other, with CRLF after
    each."""
    wanted, quoted = [], False
    for line in lines_of(m):
        if quoted:
            report.notes["quote"] += 1
        else:
            wanted.append(expected_line(line, at))
        at += len(line) + 2
        if not quoted and line.count(b'"') % 2:
            quoted = True
            wanted[-1] = wanted[-1][0]._replace(size=None), None
    nodes = [n for p in packet.iter("proto") if p.get("name") == "sdp" for n in p]
    got = [shown_line(node, want) for node, want in zip(nodes, wanted)]
    if not quoted:
        got += [(item_of(n), None) for n in nodes[len(wanted):]]
    odd = sum(parts is None for _, parts in wanted)
    report.notes["attribute"] += odd
    bad = [] if odd else sorted(complaints(packet))
    report.compare(what, flat(wanted) + ["end %d" % at], flat(got) + bad + ["end %d" % (PDU + len(octets))])


def messages(rng):
    """Messages to be written again: both families, every shape of an address, and the limits of each field."""
    addresses = [(b"IP4", a) for a in (b"1.0.0.1", b"192.0.2.10", b"223.255.255.255", b"10.200.30.4")]
    for _ in range(60):
        groups = [rng.choice((0, 0, 0, 1, 0xDB8, rng.randrange(65536))) for _ in range(8)]
        groups[0] = rng.choice((groups[0], 0x2001, 0xFE80)) & 0xFEFF
        addresses.append((b"IP6", model.show6(groups).encode() if any(groups) else b"::1"))
    # A run of zeros of each length at each place.
    for start in range(8):
        for end in range(start + 1, 9):
            groups = [0 if start <= i < end else i + 1 for i in range(8)]
            addresses.append((b"IP6", model.show6(groups).encode() if any(groups) else b"::1"))
    formats = [[], [b"97 mode-set=0,2,5"], [b"97 a=1", b"97 b=2"], [b"96 x", b"101 0-15", b"0 y"], [b"", b"x"]]
    out = []
    for n, (family, address) in enumerate(addresses * 3):
        payload = rng.choice((0, 8, 95, 96, 97, 127))
        rtpmap = rng.choice((b"", b"AMR/8000", b"telephone-event/8000", b"G729/8000"))
        out.append(Message((b"Request", b"Accepted")[n % 2], family, address, rng.choice((1, 4000, 65534, 65535)),
                           b"audio", b"RTP/AVP", payload, rtpmap, formats[n % 5], rng.choice((0, 1, 20, 255))))
    rng.shuffle(out)
    return out


def spelled(rng, address):
    """An IPv6 address in another form: leading zeros, either case, `::` for any run of zeros or for none."""
    groups = model.ip6(address)
    words = [rng.choice(("%x", "%X", "%04x", "%04X")) % g for g in groups]
    runs = [(i, j) for i in range(8) for j in range(i + 1, 9) if not any(groups[i:j])]
    if not runs or rng.random() < 0.3:
        return ":".join(words).encode()
    start, end = rng.choice(runs)
    return (":".join(words[:start]) + "::" + ":".join(words[end:])).encode()


def packet_inputs():
    """Messages for PACKET: the vectors, and those made up here."""
    with open(os.path.join(VECTORS, "message.in")) as f:
        inputs = [octets_of(l) for l in f.read().split("\n")[:-1]]
    rng = random.Random(2)
    for m in messages(rng):
        inputs.append(text(m if m.family == b"IP4" else m._replace(address=spelled(rng, m.address))))
    return inputs


def written_packets(program, report):
    """The packets that PACKET writes, with what is expected in them. A message of which only version and type are read
    writes none, and one that would have over 447 octets is refused by 5."""
    inputs = packet_inputs()
    written = []
    for data, answer in zip(inputs, run_lines(program, [i.hex().upper() or "-" for i in inputs])):
        what = "packet " + data.hex().upper()
        m = described(data)
        if m is None:
            read = model.message(data)
            report.compare(what, read if read.startswith("refused") else "-", answer)
        elif len(text(m)) > 447 or answer == "-" or answer.startswith("refused"):
            report.compare(what, "refused-5" if len(text(m)) > 447 else "a packet", answer)
        else:
            written.append((what, m, bytes.fromhex(answer)))
    return written


# Traces.

def trace_configuration(lines):
    """The front of a trace: own address and port, packet times, codec entries; and how many lines it has."""
    _, address, port, least, most, _, _ = lines[0].split(b"\t")
    front = 1
    while front < len(lines) and lines[front].split(b"\t")[0] == b"K":
        front += 1
    family = 6 if b":" in address else 4
    own = (b"IP%d" % family, model.read_address(family, address).encode(), int(port))
    names = [l.split(b"\t")[1] for l in lines[1:front]]
    return own, int(least), int(most), [b"" if n.isdigit() else n for n in names], front


def to_be_written(config, event, notice):
    """What an event should write, by document 01: a message, or None. A notice names Rejected and Confused."""
    (family, address, port), least, most, names, _ = config
    kind, *fields = event
    if kind in (b"U", b"C") and notice == "none":
        entry, payload, ptime = (int(f) for f in fields)
        return Message(b"Request", family, address, port, b"audio", b"RTP/AVP", payload, names[entry - 1], [], ptime)
    if notice in ("rejected", "confused"):
        return Message(notice.capitalize().encode(), family, address, 0, b"", b"", 0, b"", [], 0)
    heard = described(bytes.fromhex(fields[0].decode())) if kind == b"M" and notice in ("up", "changed") else None
    if heard is None or heard.kind != b"Request":
        return None
    ptime = min(max(heard.ptime, least), most) if heard.ptime else 0
    return heard._replace(kind=b"Accepted", family=family, address=address, port=port, ptime=ptime)


def trace_events(path, program):
    """The events of a trace with what the program prints of each: notice, how many octets, and the octets."""
    with open(path, "rb") as f:
        data = f.read()
    out = subprocess.run([program], input=data, capture_output=True).stdout.decode().split("\n")[:-1]
    if out == ["refused-12"]:
        return
    lines = data.removesuffix(b"\n").split(b"\n")
    config = trace_configuration(lines)
    if len(out) - 1 != len(lines) - config[4]:
        sys.exit("%s: %d answers to %d events" % (path, len(out) - 1, len(lines) - config[4]))
    for printed in out[1:]:
        number, kind, _, notice, _, count, octets, _ = printed.split(" ")
        event = lines[config[4] + int(number) - 1].split(b"\t")
        event = [b"bad"] if kind == "bad" else event[2:] if event[0] == b"B" else event
        yield int(number), config, event, notice, int(count), octets_of(octets)


def written_messages(program, report):
    """What tracedetail writes over all traces, with what is expected."""
    written = []
    for path in sorted(glob.glob(os.path.join(VECTORS, "*traces", "*.in"))):
        name = os.path.relpath(path, VECTORS)
        for number, config, event, notice, count, octets in trace_events(path, program):
            m = to_be_written(config, event, notice)
            what = "%s, event %d" % (name, number)
            if m is None or count != len(octets) or not octets:
                report.compare(what, (m is not None, count), (len(octets) > 0, len(octets)))
            else:
                written.append((what, m, octets))
    return written


def compare_traces(directory):
    """The messages of the traces, bare and after the indicators of a tunnel packet."""
    none = Report("traces, nothing written", "events")
    written = written_messages(os.path.join(directory, "tracedetail"), none)
    bare, tunnelled = Report("messages, bare"), Report("messages, tunnelled")
    for packet, (what, m, octets) in zip(dissect("sdp", [o for _, _, o in written]), written):
        compare_message(bare, what, packet, m, PDU, octets)
    compare_packets(tunnelled, [(what, m, b"  " + octets) for what, m, octets in written])
    return [none, bare, tunnelled]


def compare_packets(report, written):
    """Tunnel packets with a message: the indicators, and the message after them."""
    for packet, (what, m, octets) in zip(dissect("bctp", [o for _, _, o in written]), written):
        proto = next(p for p in packet.iter("proto") if p.get("name") == "bctp")
        got = [item_of(n) for n in proto.iter("field")]
        if got != bits_of((0, 0, 0, 32)):
            report.compare(what, bits_of((0, 0, 0, 32)), got)
        else:
            compare_message(report, what, packet, m, PDU + 2, octets)


def compare_rewritten(program):
    refused, packets = Report("packets, nothing written", "messages"), Report("packets with a message")
    compare_packets(packets, written_packets(program, refused))
    return [refused, packets]


def print_messages(directory, program):
    """The messages as written and as expected, for sdp.sh."""
    report = Report("messages")
    with contextlib.redirect_stdout(sys.stderr):
        written = written_messages(os.path.join(directory, "tracedetail"), report)
        if program:
            written += [(what, m, octets[2:]) for what, m, octets in written_packets(program, report)]
    for _, m, octets in written:
        print(octets.hex().upper(), text(m).hex().upper())
    return report.differ == 0


def main():
    arguments = [a for a in sys.argv[1:] if a != "--messages"]
    if not 1 <= len(arguments) <= 2:
        sys.exit(__doc__)
    directory, program = arguments[0], (arguments + [None])[1]
    if "--messages" in sys.argv[1:]:
        sys.exit(0 if print_messages(directory, program) else 1)
    reports = compare_elements(directory) + compare_replies(directory) + compare_traces(directory)
    if program:
        reports += compare_rewritten(program)
    right = [r.end() for r in reports]
    if not program:
        print("packets with a message: left out, no program that writes them was given")
    sys.exit(0 if all(right) else 1)


if __name__ == "__main__":
    main()
