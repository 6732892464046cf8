#!/usr/bin/env python3
"""Images for crates/scp_test and crates/scp_list, and what listing and asking them must print.

Written from the rules and the public text of revisions 1.6 and 1.4 alone: an image is taken apart into owned pieces first, by the edition
that is named, and refused by the first rule that a piece breaks. It shares nothing with the Rattle code.

    python3 tests/scp_images.py images      writes the images to crates/scp_test/data and crates/scp_list/stdin, and their names to args
    python3 tests/scp_images.py stdout      prints what crates/scp_test must print
    python3 tests/scp_images.py list        prints what crates/scp_list must print
    python3 tests/scp_images.py same        fails where the stored images are not those made here
"""
import pathlib
import struct
import sys
import typing
from fractions import Fraction

ROOT = pathlib.Path(__file__).resolve().parent.parent


class Edition(typing.NamedTuple):
    """A revision of the text: the entries of its table, where that ends, and whether FLAGS bit 5 means a footer."""
    name: str
    entries: int
    table_end: int
    footers: bool


V1_4 = Edition('1.4', 166, 0x2A8, False)
V1_6 = Edition('1.6', 168, 0x2B0, True)
HEAD, OLD_HEAD = V1_6.table_end, V1_4.table_end


class Refused(Exception):
    def __init__(self, number, position=0):
        self.number, self.position = number, position


# ---- making images

def track_block(number, revolutions, shift=0):
    """A track header with its flux after it: revolutions are (duration, words)."""
    head = b'TRK' + bytes([number])
    place, flux = 4 + 12 * len(revolutions) + shift, b''
    for duration, words in revolutions:
        head += struct.pack('<III', duration, len(words), place + len(flux))
        flux += struct.pack('>%dH' % len(words), *words)
    return head + bytes(shift) + flux


def image(tracks, revolutions=1, start=None, end=None, flags=1, heads=0, footer=None, tail=b'', width=0, version=0x16, disk=0,
          edition=V1_6, gap=b''):
    """tracks: {number: [(duration, words), ..]}; footer: (strings, created, modified, versions); gap: the bytes behind the table."""
    table, body = [0] * edition.entries, gap
    for number in sorted(tracks):
        table[number] = edition.table_end + len(body)
        body += track_block(number, tracks[number])
    body += tail
    if footer is not None:
        strings, created, modified, versions = footer
        offsets = []
        for s in strings:
            if s is None:
                offsets.append(0)
            else:
                offsets.append(edition.table_end + len(body))
                body += struct.pack('<H', len(s)) + s + b'\0'
        body += struct.pack('<6Iqq4s', *offsets, created, modified, bytes(versions)) + b'FPCS'
        flags |= 0x20
    start = min(tracks, default=0) if start is None else start
    end = max(tracks, default=0) if end is None else end
    rest = struct.pack('<%dI' % edition.entries, *table) + body
    total = 0 if flags & 0x10 else sum(rest) & 0xFFFFFFFF
    head = b'SCP' + bytes([version, disk, revolutions, start, end, flags, width, heads, 0]) + struct.pack('<I', total)
    return bytearray(head + rest)


def put(b, at, data):
    b = bytearray(b)
    b[at:at + len(data)] = data
    return b


def resum(b):
    return put(b, 12, struct.pack('<I', sum(b[16:]) & 0xFFFFFFFF))


TRACK = [(8_000_000, [160, 0, 1, 240])]
A, OLD_A = image({0: TRACK}), image({0: TRACK}, edition=V1_4)


# revolutions whose last closing word is their first, one after zero words, one before zero words, one of many, and none
CLOSING = [(8_000_000, words) for words in ([9, 0], [0, 1], [0, 0, 5], [0, 0, 0, 9, 0, 7, 0, 0], [7] * 300 + [0, 8, 0], [], [0])]


def of_turns(count, **more):
    """Track 0 with so many revolutions, each of its own duration and of one word."""
    return image({0: [(8_000_000 + k, [k + 1]) for k in range(count)]}, revolutions=count, **more)


def five_turns(n):
    """Five revolutions of track n, with and without open time."""
    return [(8_000_000 + 1000 * k * n, [100 + n, 0, 0, 7 + k] + [0] * (k % 3)) for k in range(5)]


def any_order():
    """A string comes first, then track 2, whose flux lies over that of track 0, then track 0; two of the strings are the same (L-19)."""
    string, second, first, flux = HEAD, HEAD + 5, HEAD + 21, HEAD + 37
    body = b'\2\0hi\0' + b'TRK\2' + struct.pack('<III', 4_000_000, 3, flux + 2 - second)
    body += b'TRK\0' + struct.pack('<III', 8_000_000, 4, flux - first) + struct.pack('>4H', 160, 0, 1, 240)
    b = image({}, end=2, tail=body, footer=([None] * 6, 0, 0, [0, 0, 0, 0x16]))
    for at, offset in (0x10, first), (0x18, second), (len(b) - 48, string), (len(b) - 28, string):
        b = put(b, at, struct.pack('<I', offset))
    return resum(b)


def header_at(at):
    """Image A of revision 1.4 with its track header at another offset."""
    return resum(put((OLD_A[:OLD_HEAD] + bytes(8))[:at] + OLD_A[OLD_HEAD:], 0x10, struct.pack('<I', at)))


def header_in_footer():
    """The times of the footer are a track header too, and the version bytes and the signature its flux."""
    times = struct.unpack('<qq', b'TRK\0' + struct.pack('<III', 8_000_000, 4, 16))
    b = image({}, footer=([None] * 6, *times, [1, 2, 3, 0x16]))
    return resum(put(b, 0x10, struct.pack('<I', len(b) - 24)))


def of_editions():
    """Images of revision 1.4, and others on which the editions differ. name: (image, what validating says by 1.6, and by 1.4)."""
    old = lambda tracks, **more: image(tracks, edition=V1_4, **more)
    with_strings = lambda *strings: old({0: TRACK}, footer=([*strings, *[None] * (6 - len(strings))], 1, -1, [1, 2, 3, 0x16]))
    old_footer, footed = with_strings(b'maker', b'model'), image({0: TRACK}, footer=([None] * 6, 0, 0, [0, 0, 0, 0x16]))
    two_sided, far = {t: five_turns(t) for t in (0, 1, 6)}, old({0: TRACK, 165: TRACK})
    far_header = len(far) - 24
    return {
        'old_a': (OLD_A, 'refused 10 at 0', 'valid'),
        'old_damaged': (put(OLD_A, 12, struct.pack('<I', 973)), 'refused 10 at 0', 'refused 12 at 0'),
        'old_count_5': (resum(put(OLD_A, OLD_HEAD + 8, b'\5')), 'refused 10 at 0', 'refused 11 at 0'),
        'old_read_write': (old({0: TRACK}, flags=0x11), 'refused 10 at 0', 'valid'),
        'old_two_sided': (old(two_sided, revolutions=5, tail=b'1/05/2014 5:15:21 PM'), 'refused 10 at 0', 'valid'),
        'old_revolutions_255': (of_turns(255, edition=V1_4), 'refused 10 at 0', 'valid'),
        # the length, and what lies right behind the table
        'old_length_679': (OLD_A[:679], 'refused 1 at 0', 'refused 1 at 0'),
        'old_length_680': (old({}), 'refused 1 at 0', 'valid'),
        'old_length_687': (old({}, tail=bytes(7)), 'refused 1 at 0', 'valid'),
        'old_header_679': (header_at(679), 'refused 10 at 0', 'refused 10 at 0'),
        'old_header_687': (header_at(687), 'refused 10 at 0', 'valid'),
        'old_gap': (old({0: TRACK}, gap=b'12345678'), 'refused 9 at 166', 'valid'),
        'old_gap_167': (old({0: TRACK}, gap=b'\0\0\0\0' b'5678'), 'refused 9 at 167', 'valid'),
        'old_gap_end_167': (old({0: TRACK}, gap=b'12345678', end=167), 'refused 10 at 166', 'refused 5 at 0'),
        # the last tracks
        'end_165': (put(A, 7, b'\xA5'), 'valid', 'valid'),
        'end_166': (put(A, 7, b'\xA6'), 'valid', 'refused 5 at 0'),
        'last_tracks': (image({t: TRACK for t in (0, 165, 166, 167)}), 'valid', 'refused 5 at 0'),
        'old_end_166': (put(OLD_A, 7, b'\xA6'), 'refused 10 at 0', 'refused 5 at 0'),
        'old_track_165': (far, 'refused 10 at 0', 'valid'),
        'old_slot_165': (put(far, 7, b'\xA4'), 'refused 10 at 0', 'refused 9 at 165'),
        'old_side_165': (put(far, 10, b'\1'), 'refused 10 at 0', 'refused 9 at 165'),
        'old_number_165': (put(far, far_header + 3, b'\xA6'), 'refused 10 at 0', 'refused 10 at 165'),
        'old_flux_165': (put(far, far_header + 8, b'\5'), 'refused 10 at 0', 'refused 11 at 165'),
        # FLAGS bit 5 with no footer, or with one that 1.6 reads or refuses
        'old_flagged': (put(OLD_A, 8, b'\x21'), 'refused 7 at 0', 'valid'),
        'old_footer': (old_footer, 'refused 10 at 0', 'valid'),
        'old_footer_unsigned': (resum(put(old_footer, len(old_footer) - 1, b'T')), 'refused 7 at 0', 'valid'),
        'old_footer_version_15': (resum(put(old_footer, len(old_footer) - 5, b'\x15')), 'refused 7 at 0', 'valid'),
        'old_string_low': (resum(put(old_footer, len(old_footer) - 44, struct.pack('<I', 687))), 'refused 8 at 1', 'valid'),
        'old_string_zero_inside': (with_strings(b'ma\0er'), 'refused 8 at 0', 'valid'),
        # E is the length: flux and header in the last 48 bytes
        'flux_in_footer': (resum(put(footed, HEAD + 8, b'\x1C')), 'refused 11 at 0', 'valid'),
        'flux_past_footer': (resum(put(footed, HEAD + 8, b'\x1D')), 'refused 11 at 0', 'refused 11 at 0'),
        'header_in_footer': (header_in_footer(), 'refused 10 at 0', 'valid'),
    }


def images():
    strings = [b'maker', b'', None, b'creator', b'app 1.6', None]
    footer = strings, -1, 1_700_000_000, [0x10, 0x15, 0x12, 0x16]
    two_sided = image({t: five_turns(t) for t in (0, 1, 6)}, revolutions=5, footer=footer, version=0)
    one_string = image({0: [(0, [])]}, footer=([b'x' * 7] + [None] * 5, 0, 0, [0, 0, 0, 0x16]))
    end = len(A)
    return {
        'a': A,
        'two_sided': two_sided,
        'string_at_end': one_string,
        'no_tracks': image({}),
        'one_side_even': image({0: [(8_000_000, [5])], 2: [(4_000_000, [6])]}, heads=1),
        'one_side_odd': image({1: [(8_000_000, [5])]}, heads=2),
        'read_write': image({0: [(8_000_000, [5, 0])]}, flags=0x11),
        'no_duration': image({0: [(0, [5])]}),
        'open_only': image({0: [(8_000_000, [0, 0])]}),
        'closing_words': image({0: CLOSING}, revolutions=len(CLOSING)),
        'empty_flux_at_end': resum(put(put(A, HEAD + 8, bytes(4)), HEAD + 12, struct.pack('<I', end - HEAD))),
        'empty_flux_past_end': resum(put(put(A, HEAD + 8, bytes(4)), HEAD + 12, struct.pack('<I', end - HEAD + 1))),
        'count_5': resum(put(A, HEAD + 8, b'\5\0\0\0')),
        'distance_largest': resum(put(A, HEAD + 12, b'\xFF' * 4)),
        'count_largest': resum(put(A, HEAD + 8, b'\xFF' * 4)),
        'entry_largest': resum(put(A, 0x10, b'\xFF' * 4)),
        'entry_below_table_end': resum(put(A, 0x10, struct.pack('<I', 687))),
        'header_past_end': resum(put(A, 0x10, struct.pack('<I', end - 15))),
        'length_687': A[:687],
        'empty': b'',
        'not_scp': put(A, 1, b'X'),
        'width_8': put(A, 9, b'\x08'),
        'width_16': put(A, 9, b'\x10'),
        'revolutions_0': put(A, 5, b'\0'),
        'revolutions_6': of_turns(6),
        'revolutions_9': of_turns(9),
        'revolutions_200': of_turns(200),
        'revolutions_255': of_turns(255),
        'revolutions_255_header_past_end': resum(of_turns(255)[:HEAD + 3063]),
        'revolutions_255_last_past_end': resum(of_turns(255)[:-1]),
        'read_write_0': of_turns(0, flags=0x11),
        'read_write_two': put(image({0: [(1, [1]), (1, [1])]}, revolutions=2), 8, b'\x11'),
        'read_write_255': of_turns(255, flags=0x11),
        'start_above_end': put(A, 6, b'\1'),
        'end_168': put(A, 7, b'\xA8'),
        'heads_3': put(A, 10, b'\3'),
        'footer_735': put(A + bytes(23), 8, b'\x21'),
        'footer_736': resum(put(image({}, footer=([None] * 6, 0, 0, [0, 0, 0, 0x16])), 0, b'SCP')),
        'footer_unsigned': put(two_sided, len(two_sided) - 1, b'T'),
        'footer_version_15': put(two_sided, len(two_sided) - 5, b'\x15'),
        'string_past_end': put(one_string, HEAD + 16, b'\x08'),
        'string_zero_inside': put(one_string, HEAD + 20, b'\0'),
        'string_not_ended': put(one_string, HEAD + 25, b'x'),
        'string_low': put(two_sided, len(two_sided) - 48 + 12, struct.pack('<I', 687)),
        'slot_past_end': put(put(A, 0x14, struct.pack('<I', HEAD)), 7, b'\0'),
        'slot_other_side': put(image({0: [(1, [5])], 1: [(1, [5])]}), 10, b'\1'),
        'no_trk': put(A, HEAD + 2, b'X'),
        'other_number': put(A, HEAD + 3, b'\1'),
        'damaged': put(A, 12, struct.pack('<I', 981)),
        'read_write_summed': put(image({0: [(8_000_000, [5, 0])]}, flags=0x11), 12, b'\1'),
        'type_bit_is_not_read_write': image({0: [(8_000_000, [5])]}, flags=9),
        # what is ignored: version, disk type, FLAGS but bits 4 and 5, the reserved byte (L-2, L-5, L-9); a timestamp (L-20)
        'ignored_bytes': put(image({0: [(8_000_000, [5])]}, flags=0xCF, version=0xFF, disk=0xFF), 11, b'\xFF'),
        'timestamp': image({0: [(8_000_000, [5])]}, tail=b'1/05/2014 5:15:21 PM'),
        'any_order': any_order(),
        **{name: b for name, (b, *_) in {**of_texts(), **of_editions()}.items()},
    }


def of_texts():
    """Images whose strings are text, or are not (L-24, R-19). name: (image, what validating says by 1.6, and by 1.4)."""
    def with_strings(*strings, tracks={0: [(0, [])]}, **more):
        return image(tracks, footer=([*strings, *[None] * (6 - len(strings))], 0, 0, [0, 0, 0, 0x16]), **more)

    widths = ['a\x01\x7F', '\x80\u07FF', '\u0800\uD7FF\uE000\uFFFF', '\U00010000\U0010FFFF', 'x' * 63 + '\u00B5s', '\uFEFF\uFDD0']
    before = with_strings(b'maker', b'ok', b'My \x97pp', b'creator')
    third = struct.unpack_from('<I', before, len(before) - 48 + 12)[0]
    return {
        'text_of_all_widths': (with_strings(*[text.encode() for text in widths]), 'valid', 'valid'),
        # every byte but zero; then 0x97 as the text's example has it
        'string_any_bytes': (with_strings(bytes(range(1, 256))), 'refused 19 at 0', 'valid'),
        'text_97': (with_strings(b'maker', b'My \x97pp'), 'refused 19 at 1', 'valid'),
        'text_overlong': (with_strings(None, None, b'\xC0\xAF'), 'refused 19 at 2', 'valid'),
        'text_surrogate': (with_strings(None, b'', None, b'\xED\xA0\x80'), 'refused 19 at 3', 'valid'),
        'text_above_10ffff': (with_strings(*[b'ok'] * 4, b'\xF4\x90\x80\x80'), 'refused 19 at 4', 'valid'),
        # cut off by the end of the string
        'text_cut': (with_strings(*[None] * 5, b'x' * 40 + b'\xE2\x82'), 'refused 19 at 5', 'valid'),
        'text_before_string': (resum(put(before, third + 2 + 7, b'!')), 'refused 19 at 2', 'valid'),
        'string_before_text': (with_strings(b'maker', b'o\0', b'My \x97pp'), 'refused 8 at 1', 'valid'),
        'string_and_text': (with_strings(b'\x97\0'), 'refused 8 at 0', 'valid'),
        'text_before_track': (put(with_strings(b'\x97', tracks={0: TRACK}), HEAD + 2, b'X'), 'refused 19 at 0', 'refused 10 at 0'),
    }


# ---- taking them apart

class Image:
    def __init__(self, b, edition):
        self.read_header(b, edition)
        if self.flagged:
            self.read_footer()
        self.entries = struct.unpack_from('<%dI' % edition.entries, self.b, 16)
        self.tracks = {t: self.read_track(t, e) for t, e in enumerate(self.entries) if e}

    def read_header(self, b, edition):
        self.b = b = bytes(b)
        self.edition = edition
        if not edition.table_end <= len(b) <= 1 << 28:
            raise Refused(1)
        if b[:3] != b'SCP':
            raise Refused(2)
        self.version, self.disk, self.turns, self.start, self.end, self.flags, self.width, self.heads = b[3:11]
        self.stored, = struct.unpack_from('<I', b, 12)
        if self.width not in (0, 16):
            raise Refused(3)
        self.read_write = bool(self.flags >> 4 & 1)
        if self.turns == 0 or self.read_write and self.turns > 1:
            raise Refused(4)
        if self.start > self.end or self.end >= edition.entries:
            raise Refused(5)
        if self.heads > 2:
            raise Refused(6)
        self.footer = None
        self.flagged = edition.footers and self.flags >> 5 & 1
        self.data_end = len(b) - (48 if self.flagged else 0)

    def read_footer(self):
        if len(self.b) < 736 or self.b[-4:] != b'FPCS' or self.b[-5] < 0x16:
            raise Refused(7)
        *offsets, created, modified = struct.unpack_from('<6Iqq', self.b, self.data_end)
        self.footer = offsets, created, modified, self.b[-8:-4]
        for j, o in enumerate(offsets):
            if o:
                self.read_text(j, o)

    def read_text(self, j, o):
        area = self.b[:self.data_end]
        if o < self.edition.table_end or o + 3 > len(area):
            raise Refused(8, j)
        n = area[o] | area[o + 1] << 8
        text = area[o + 2:o + 3 + n]
        if len(text) != n + 1 or text.find(0) != n:
            raise Refused(8, j)
        try:
            text[:n].decode()
        except UnicodeDecodeError:
            raise Refused(19, j) from None

    def read_track(self, t, entry):
        if not self.start <= t <= self.end or self.heads == 1 and t & 1 or self.heads == 2 and not t & 1:
            raise Refused(9, t)
        head = self.b[entry:min(entry + 4 + 12 * self.turns, self.data_end)]
        if entry < self.edition.table_end or len(head) != 4 + 12 * self.turns or head[:4] != b'TRK' + bytes([t]):
            raise Refused(10, t)
        turns = []
        for duration, count, distance in struct.iter_unpack('<III', head[4:]):
            place = entry + distance
            if place + 2 * count > self.data_end:
                raise Refused(11, t)
            turns.append((duration, count, place))
        return turns

    def judge(self):
        if self.stored != (0 if self.read_write else sum(self.b[16:]) % 2**32):
            raise Refused(12)


class OneTrack(Image):
    """The header and one track of an image, taken apart without a look at anything else."""

    def __init__(self, b, edition, t):
        self.read_header(b, edition)
        entry, = struct.unpack_from('<I', self.b, 16 + 4 * t) if t < edition.entries else [0]
        if not entry:
            raise Refused(13)
        self.entries, self.tracks = {t: entry}, {t: self.read_track(t, entry)}


def judged(b, edition):
    """What validating says."""
    try:
        Image(b, edition).judge()
    except Refused as r:
        return 'refused %d at %d' % (r.number, r.position)
    return 'valid'


def intervals(words):
    out, run = [], []
    for w in words:
        run.append(w or 65536)
        if w:
            out.append(sum(run))
            run = []
    return out, sum(run)


def closing_numbers(words):
    """Which words close an interval, counted from 0."""
    return [number for number, word in enumerate(words) if word]


def listing(b):
    """What crates/scp_list prints, which stays with 1.6."""
    verdict = judged(b, V1_6) if len(b) <= 65536 else 'refused 1 at 0'
    if verdict != 'valid':
        return [verdict]
    i = Image(b, V1_6)
    lines = ['ok %d tracks %d turns %d sum %d' % (len(b), len(i.tracks), i.turns, i.stored)]
    for t, turns in i.tracks.items():
        for k, (duration, count, place) in enumerate(turns):
            words = struct.unpack_from('>%dH' % count, i.b, place)
            closed, open_time = intervals(words)
            last = max(closing_numbers(words), default='-')
            lines.append('track %d turn %d ticks %d words %d intervals %d open %d last %s'
                         % (t, k, duration, count, len(closed), open_time, last))
    return lines


def exact(duration, rpm):
    return duration and Fraction(2_400_000_000, duration) == rpm


def questions(b, edition):
    """What crates/scp_test prints of the header, the footer, a track, its revolutions and its speeds."""
    try:
        i = Image(b, edition)
    except Refused as r:
        return ['asked: refused %d at %d' % (r.number, r.position)]
    lines = ['header %d %d %d %d %d %d %d %d %d' % (i.version, i.disk, i.turns, i.start, i.end, i.flags, i.width, i.heads, i.stored)]
    if i.footer is None:
        lines.append('footer none')
    else:
        offsets, created, modified, versions = i.footer
        times = ['%s%016x' % ('-' if n < 0 else '+', n & (1 << 64) - 1) for n in (created, modified)]
        lines.append('footer ' + ' '.join(map(str, [*offsets, *times, *versions])))
    for t in 0, 1, 165, 166, 167, 168, 4294967295:
        if t not in i.tracks:
            lines.append('track %d: refused 13 at 0' % t)
            continue
        lines.append('track %d: %d %d %d %d' % (t, t // 2, t % 2, i.entries[t], i.turns))
        durations = [d for d, _, _ in i.tracks[t] if d]
        lines.append('speeds ' + ('none' if not durations else
                     'slowest 300 %d fastest 300 %d' % (exact(max(durations), 300), exact(min(durations), 300))))
        for k in (0, 4, 5, 8, 127, 199, 254, 255, 4294967295) if edition == V1_6 else (0, 254):
            if k >= i.turns:
                lines.append('turn %d: refused 14 at 0' % k)
                continue
            duration, count, place = i.tracks[t][k]
            speed = 'none' if not duration else '300 %d' % exact(duration, 300)
            words = struct.unpack_from('>%dH' % count, i.b, place)
            closed, open_time = intervals(words)
            times, closing = [4, 5, 6], [7, 8]
            if len(closed) <= 2:
                times[:len(closed)], closing[:len(closed)] = closed, closing_numbers(words)
            places = 'refused 15 at 0' if len(closed) > 2 else 'filled %d open %d' % (len(closed), open_time)
            lines.append('turn %d: %d %d %d flux %d speed %s intervals %s closed %s times %d %d %d by %d %d'
                         % (k, duration, count, place, 2 * count, speed, places, places, *times, *closing))
    return lines


def directly(b, edition):
    """What crates/scp_test prints of tracks and revolutions that it asks for directly."""
    lines = []
    for t in 0, 1, 165, 166, 167, 168, 4294967295:
        try:
            i = OneTrack(b, edition, t)
        except Refused as r:
            refused = 'refused %d at %d' % (r.number, r.position)
            lines.append('direct %d: %s turn 0: %s flux 0 turn 254: %s flux 0' % (t, refused, refused, refused))
            continue
        line = 'direct %d: %d %d %d %d' % (t, t // 2, t % 2, i.entries[t], i.turns)
        for k in 0, 254:
            found = i.tracks[t][k:k + 1]
            line += ' turn %d: ' % k + ('%d %d %d flux %d' % (*found[0], 2 * found[0][1]) if found else 'refused 14 at 0 flux 0')
        lines.append(line)
    return lines


def main(what):
    made = {'%s.scp' % name: bytes(b) for name, b in images().items()}
    data, args, stdin = ROOT / 'crates/scp_test/data', ROOT / 'crates/scp_test/args', ROOT / 'crates/scp_list/stdin'
    names = ''.join(name + '\n' for name in made)
    if what == 'images':
        data.mkdir(parents=True, exist_ok=True)
        for name, b in made.items():
            (data / name).write_bytes(b)
        args.write_text(names)
        stdin.write_bytes(bytes(A))
    elif what == 'same':
        stored = {p.name: p.read_bytes() for p in data.glob('*.scp')}
        sys.exit(stored != made or args.read_text() != names or stdin.read_bytes() != bytes(A))
    elif what == 'list':
        print('\n'.join(listing(A)))
    else:
        for name, b in made.items():
            print('\n'.join(['== ' + name, *listing(b), *questions(b, V1_6), *directly(b, V1_6), 'by 1.4: ' + judged(b, V1_4),
                             *questions(b, V1_4), *directly(b, V1_4)]))


if __name__ == '__main__':
    assert len(A) == 712 and struct.unpack_from('<I', A, 12)[0] == 980
    assert len(OLD_A) == 704 and struct.unpack_from('<I', OLD_A, 12)[0] == 972
    for name, (b, *verdicts) in {**of_texts(), **of_editions()}.items():
        assert verdicts == [judged(b, V1_6), judged(b, V1_4)], name
    main(sys.argv[1])
