#!/usr/bin/env python3
"""Images for crates/rewrite_test, and what rewriting them must print.

Written from the rules alone: what a rewrite stands on and what others claim by its edition are sets of byte numbers, and the checksum is
moved by the sums of the whole image before and after. It shares nothing with the Rattle code.

    python3 tests/rewrite_expected.py images      writes the images to crates/rewrite_test/data, and their names to its args
    python3 tests/rewrite_expected.py stdout      prints what crates/rewrite_test must print
    python3 tests/rewrite_expected.py same        fails where the stored images are not those made here
"""
import pathlib
import struct
import sys

sys.dont_write_bytecode = True
import scp_images
from scp_images import A, OLD_A, OLD_HEAD, V1_4, V1_6, Image, Refused, image, judged, put, resum

ROOT = pathlib.Path(__file__).resolve().parent.parent
WORDS = bytes.fromhex('01400000000100F0')

# The rewrites that are tried on every image, by each edition: track, turn, duration, words.
ATTEMPTS = [
    (0, 0, 8_000_000, WORDS),
    (0, 0, 2**32 - 1, b'abcd'),
    (0, 0, 1, b''),
    (0, 0, 0, b'abc'),
    (0, 0, 0, b'abcdefghij'),
    (0, 1, 2, b'ab'),
    (0, 4, 3, b''),
    (0, 5, 4, b'abc'),
    (0, 2**32 - 1, 5, b''),
    (0, 5, 12, b'ab'),
    (0, 127, 10, b'ab'),
    (0, 254, 11, b'ab'),
    (1, 0, 6, b'ab'),
    (165, 0, 13, b'ab'),
    (166, 0, 14, b''),
    (167, 0, 7, b''),
    (168, 5, 8, b'abc'),
    (2**32 - 1, 0, 9, b''),
]
FOUR, TWO, NONE, ODD, FIVE, *OTHERS = range(18)
TURN_1, TURN_4, TURN_5, TURN_MAX, TURN_5_WORD, TURN_127, TURN_254, *TRACKS = OTHERS
TRACK_1, TRACK_165, TRACK_166, TRACK_167, TRACK_168, TRACK_MAX = TRACKS


# ---- making images

def laid(tracks, turns=1, length=800, strings=(), flags=1, edition=V1_6):
    """An image by places. tracks: {number: (place, [(duration, count, flux place), ..])}; strings: [(string number, place, text), ..].

    What is written later lies over what was written before; bytes of no piece are a pattern.
    """
    b = bytearray(i * 7 % 251 for i in range(length))
    b[:edition.table_end] = bytes(edition.table_end)
    b[:12] = b'SCP' + bytes([0x16, 0, turns, min(tracks), max(tracks), flags | (0x20 if strings else 0), 0, 0, 0])
    offsets = [0] * 6
    for j, place, text in strings:
        offsets[j] = place
        b[place:place + len(text) + 3] = struct.pack('<H', len(text)) + text + b'\0'
    for t, (place, revolutions) in tracks.items():
        struct.pack_into('<I', b, 0x10 + 4 * t, place)
        b[place:place + 4 + 12 * turns] = b'TRK' + bytes([t]) + b''.join(struct.pack('<III', d, n, f - place) for d, n, f in revolutions)
    if strings:
        b[-48:] = struct.pack('<6Iqq4s', *offsets, 1, -1, bytes([1, 2, 3, 0x16])) + b'FPCS'
    assert len(b) == length
    return resum(b) if not flags & 0x10 else b


def one(count, place, **more):
    """Track 0 alone at 688: its header ends at 704, its 8 bytes are 692 to 699."""
    return laid({0: (688, [(500, count, place)])}, **more)


def two(header, flux, flux_1=(2, 780), track=1):
    """Track 0 at 688 with 4 words at `flux`, and another track at `header`."""
    return laid({0: (688, [(500, 4, flux)]), track: (header, [(600, *flux_1)])})


def old_one(count, place):
    """Track 0 alone at 680: its header ends at 696, its 8 bytes are 684 to 691."""
    return laid({0: (OLD_HEAD, [(500, count, place)])}, edition=V1_4)


def old_two(header, flux, flux_165):
    """Track 0 at 680 with 4 words at `flux`, and track 165, the last, at `header`."""
    return laid({0: (OLD_HEAD, [(500, 4, flux)]), 165: (header, [(600, *flux_165)])}, edition=V1_4)


def images():
    """name: (image, {attempt: number of refusal, 0 for done} by 1.6, and by 1.4), the last only where the editions answer differently."""
    stored = scp_images.images()
    shared = {FOUR: 18, TWO: 18, NONE: 18, ODD: 17, FIVE: 17}
    both = {**shared, TRACK_1: 18}
    short = {FOUR: 17, TWO: 18, NONE: 18}
    fine = {FOUR: 0, TWO: 0, NONE: 0, ODD: 17, FIVE: 17}
    refused = lambda n: dict.fromkeys(range(len(ATTEMPTS)), n)
    string = lambda count, place, number=0: one(count, place, strings=[(number, 720, b'x' * 7)])
    other = dict.fromkeys(TRACKS, 13)
    two_turns = {0: (688, [(500, 4, 720), (600, 2, 740)])}
    turns_5 = [(100 + k, 1, 760 + 2 * k) for k in range(5)]
    turns_255 = [(100 + k, 1, 3752 + 2 * k) for k in range(255)]
    of_255 = lambda turns: laid({0: (688, turns)}, turns=255, length=4262)
    first_and_last = {NONE: 18, TURN_1: 0, TURN_4: 0, TURN_127: 0, TURN_254: 18}
    return {
        'a': (A, {**fine, TURN_1: 14, TURN_4: 14, TURN_5: 14, TURN_MAX: 14, **other}),
        'damaged': (stored['damaged'], fine),
        'stored_0': (put(A, 12, bytes(4)), fine),
        'stored_largest': (put(A, 12, b'\xFF' * 4), fine),
        'two_sided': (stored['two_sided'], {**fine, TURN_1: 0, TURN_4: 0, TURN_5: 14, TURN_MAX: 14, TRACK_1: 0, TRACK_167: 13}),
        'one_side_odd': (stored['one_side_odd'], {FOUR: 13, TRACK_1: 0}),
        'read_write': (stored['read_write'], {FOUR: 17, TWO: 0, NONE: 0}),
        'read_write_4': (one(4, 704, flags=0x11), fine),
        'read_write_summed': (stored['read_write_summed'], {FOUR: 17, TWO: 0, NONE: 0}),
        'type_bit_is_not_read_write': (one(4, 704, flags=9), fine),
        'no_tracks': (stored['no_tracks'], {FOUR: 13, **other}),
        'five_words': (image({0: [(1, [1, 2, 3, 4, 5])]}), {**fine, FIVE: 0}),
        'revolutions_6': (stored['revolutions_6'], {FOUR: 17, NONE: 0, TURN_1: 0, TURN_4: 0, TURN_5: 17, TURN_5_WORD: 0, TURN_127: 14}),
        'revolutions_255': (stored['revolutions_255'], {FOUR: 17, NONE: 0, TURN_1: 0, TURN_127: 0, TURN_254: 0, TURN_MAX: 14}),
        'track_167': (image({0: [(1, [1, 2, 3, 4])], 167: [(2, [5])]}), {**fine, TRACK_167: 0}, refused(5)),
        # refused before
        'length_687': (stored['length_687'], refused(1), refused(10)),
        'empty': (stored['empty'], refused(1)),
        'not_scp': (stored['not_scp'], refused(2)),
        'width_8': (stored['width_8'], refused(3)),
        'revolutions_0': (stored['revolutions_0'], refused(4)),
        'read_write_255': (stored['read_write_255'], refused(4)),
        'end_168': (stored['end_168'], refused(5)),
        'heads_3': (stored['heads_3'], refused(6)),
        'footer_unsigned': (stored['footer_unsigned'], refused(7), {**fine, TURN_4: 0, TRACK_1: 0}),
        'string_low': (stored['string_low'], refused(8), {**fine, TURN_4: 0, TRACK_1: 0}),
        'no_text': (one(4, 704, strings=[(2, 720, b'My \x97pp')]), refused(19), fine),
        'slot_past_end': (stored['slot_past_end'], refused(9)),
        'no_trk': (stored['no_trk'], refused(10)),
        'count_5': (stored['count_5'], refused(11)),
        # the flux of two tracks
        'tracks_flux': (two(704, 740, (4, 746)), both),
        'tracks_flux_a_byte': (two(704, 740, (4, 747)), both),
        'tracks_flux_a_byte_before': (two(704, 740, (4, 733)), both),
        'tracks_flux_inside': (two(704, 740, (1, 742)), both),
        'tracks_flux_same': (two(704, 740, (4, 740)), both),
        'tracks_flux_far': (two(704, 740, (4, 747), 167), {**shared, TRACK_167: 18}, refused(5)),
        # the flux of two turns of a track
        'turns_flux': (laid({0: (688, [(1, 4, 716), (2, 4, 722)])}, turns=2), {**shared, TURN_1: 18}),
        'turns_flux_a_byte': (laid({0: (688, [(1, 4, 723), (2, 4, 716)])}, turns=2), {**shared, TURN_1: 18}),
        'turns_flux_last': (laid({0: (688, turns_5[:4] + [(9, 1, 767)])}, turns=5), {NONE: 0, TURN_1: 0, TURN_4: 18}),
        # the flux of the first of 255 turns, on the flux, the numbers or the distance of the last
        'turns_255_flux': (of_255(turns_255[:254] + [(9, 1, 3752)]), first_and_last),
        'turns_255_numbers': (of_255([(9, 1, 3740)] + turns_255[1:]), first_and_last),
        'turns_255_distance': (of_255([(9, 1, 3748)] + turns_255[1:]), {**first_and_last, TURN_254: 0}),
        # flux and the header of another track, whose own rewrite is shared only where its 8 bytes are hit
        'other_header_start': (two(711, 704), {**shared, TRACK_1: 0}),
        'other_header_end': (two(704, 719), {**shared, TRACK_1: 0}),
        'other_header_numbers': (laid({0: (688, [(500, 4, 708)]), 1: (704, [(600, 2, 780)])}), both),
        'other_numbers_first': (two(704, 701), both),
        'other_numbers_last': (two(704, 715), both),
        'other_before_numbers': (two(704, 700), {**shared, TRACK_1: 0}),
        'other_behind_numbers': (two(704, 716), {**shared, TRACK_1: 0}),
        'other_header_far': (two(711, 704, track=167), {**shared, TRACK_167: 0}, refused(5)),
        # two headers over each other: the second lies on the 8 bytes of the first, which so hold "TRK" and the count 2
        'headers': (laid({0: (688, [(0, 0, 688)]), 1: (692, [(2, 20, 740)])}), {TWO: 18, NONE: 18, TRACK_1: 18}),
        # flux and its own header outside the 8 bytes
        'own_header_end': (one(4, 703), shared),
        'own_header_start': (one(2, 688), short),
        'own_header_number': (one(2, 700), short),
        'own_header_all': (one(8, 688), {**shared, FIVE: 18}),
        'own_header_other_turn': (laid({0: (688, [(1, 4, 704), (2, 4, 760)])}, turns=2), {**shared, TURN_1: 18}),
        # flux and its own 8 bytes
        'own_numbers': (one(4, 692), shared),
        'own_numbers_end': (one(1, 698), {FOUR: 17, TWO: 17, NONE: 18}),
        'own_numbers_start': (one(1, 692), {FOUR: 17, TWO: 17, NONE: 18}),
        # flux or the 8 bytes, and a string, which claims nothing by 1.4
        'string_length': (string(4, 713), shared, fine),
        'string_text': (string(2, 722), short, {FOUR: 17, TWO: 0, NONE: 0}),
        'string_zero': (string(4, 729), shared, fine),
        'string_last': (string(4, 729, 5), shared, fine),
        'string_in_flux': (laid(two_turns, turns=2, strings=[(2, 724, b'x' * 7)]), {**shared, TURN_1: 0}, {**fine, TURN_1: 0}),
        # empty strings, each on three zero bytes of the header: of the duration, the count, the distance
        'string_duration': (laid({0: (688, [(0, 4, 704)])}, strings=[(4, 692, b'')]), shared, fine),
        'string_count': (one(4, 704, strings=[(4, 697, b'')]), shared, fine),
        'string_distance': (one(4, 704, strings=[(4, 701, b'')]), fine),
        # touching
        'touching': (laid({0: (688, [(500, 4, 704)]), 1: (712, [(600, 2, 728)])}, strings=[(0, 732, b'xy'), (5, 737, b'')], length=788),
                     {**fine, TRACK_1: 0}),
        'touching_before_string': (one(4, 712, strings=[(2, 720, b'xy')]), fine),
        'touching_after_string': (one(4, 725, strings=[(2, 720, b'xy')]), fine),
        'touching_footer': (one(4, 744, strings=[(2, 720, b'xy')]), fine),
        'touching_end': (one(4, 792), fine),
        'turns_touching': (laid({0: (688, turns_5)}, turns=5), {FOUR: 17, NONE: 0, TURN_1: 0, TURN_4: 0}),
        # no words, inside what is claimed
        'no_words_in_header': (one(0, 689), {FOUR: 17, TWO: 17, NONE: 0}),
        'no_words_in_numbers': (one(0, 695), {FOUR: 17, TWO: 17, NONE: 0}),
        'no_words_in_string': (string(0, 724), {FOUR: 17, TWO: 17, NONE: 0}),
        'no_words_of_other': (two(704, 740, (0, 743)), {**fine, TRACK_1: 17}),
        'no_words_of_other_in_numbers': (laid({1: (688, [(600, 0, 709)]), 0: (704, [(500, 4, 740)])}), fine),
        # strings that share bytes with one another only
        'strings_same': (one(4, 704, strings=[(0, 720, b'xy'), (3, 720, b'xy')]), fine),
        # images of revision 1.4, whose track header may stand at 680, and others on which the editions differ
        'old_a': (stored['old_a'], refused(10), {**fine, TURN_1: 14, **other}),
        'old_damaged': (stored['old_damaged'], refused(10), fine),
        'old_read_write': (stored['old_read_write'], refused(10), fine),
        'old_two_sided': (stored['old_two_sided'], refused(10), {**fine, TURN_4: 0, TURN_5: 14, TRACK_1: 0}),
        'old_revolutions_255': (stored['old_revolutions_255'], refused(10), {FOUR: 17, NONE: 0, TURN_127: 0, TURN_254: 0, TURN_MAX: 14}),
        'old_length_679': (stored['old_length_679'], refused(1)),
        'old_length_680': (stored['old_length_680'], refused(1), {FOUR: 13, **other}),
        'old_header_679': (stored['old_header_679'], refused(10)),
        'old_header_687': (stored['old_header_687'], refused(10), fine),
        'old_gap': (stored['old_gap'], refused(9), fine),
        'end_166': (stored['end_166'], fine, refused(5)),
        'last_tracks': (stored['last_tracks'], {**fine, TRACK_1: 13, TRACK_165: 0, TRACK_166: 0, TRACK_167: 0, TRACK_168: 13}, refused(5)),
        'old_track_165': (stored['old_track_165'], refused(10), {**fine, TRACK_1: 13, TRACK_165: 0, TRACK_166: 13}),
        'old_flux_165': (stored['old_flux_165'], refused(10), refused(11)),
        'old_flagged': (stored['old_flagged'], refused(7), fine),
        # over the last 48 bytes
        'flux_in_footer': (stored['flux_in_footer'], refused(11), {FOUR: 0, TWO: 0, NONE: 0, ODD: 17, FIVE: 0}),
        'header_in_footer': (stored['header_in_footer'], refused(10), fine),
        # the last track claims, and so does the own header from 680 on
        'old_tracks_flux': (old_two(696, 740, (4, 747)), refused(10), {**shared, TRACK_165: 18}),
        'old_other_header_start': (old_two(703, 696, (2, 780)), refused(10), {**shared, TRACK_165: 0}),
        'old_other_header_end': (old_two(696, 711, (2, 780)), refused(10), {**shared, TRACK_165: 0}),
        'old_own_header': (old_one(2, 680), refused(10), short),
        'old_own_numbers': (old_one(4, 684), refused(10), shared),
        'old_touching': (old_two(704, 696, (40, 720)), refused(10), {**fine, TRACK_165: 0}),
        'old_no_words_in_header': (old_one(0, 680), refused(10), {FOUR: 17, TWO: 17, NONE: 0}),
    }


# ---- rewriting

def claimed_by_others(i, t, k):
    claims = set(range(i.edition.table_end)) | set(range(i.data_end, len(i.b)))
    for u, turns in i.tracks.items():
        claims |= set(range(i.entries[u], i.entries[u] + 4 + 12 * i.turns)) - (own_numbers(i, t, k) if u == t else set())
        for j, (_, count, place) in enumerate(turns):
            if (u, j) != (t, k):
                claims |= set(range(place, place + 2 * count))
    for o in i.footer[0] if i.footer else ():
        if o:
            claims |= set(range(o, i.b.index(0, o + 2) + 1))
    return claims


def own_numbers(i, t, k):
    at = i.entries[t] + 4 + 12 * k
    return set(range(at, at + 8))


def rewritten(b, edition, t, k, duration, words):
    i = Image(b, edition)
    if t not in i.tracks:
        raise Refused(13)
    if k >= i.turns:
        raise Refused(14)
    _, count, place = i.tracks[t][k]
    if len(words) & 1 or len(words) > 2 * count:
        raise Refused(17)
    numbers, flux = own_numbers(i, t, k), set(range(place, place + 2 * count))
    if numbers & flux or (numbers | flux) & claimed_by_others(i, t, k):
        raise Refused(18)
    after = bytearray(b)
    struct.pack_into('<II', after, min(numbers), duration, len(words) // 2)
    after[place:place + len(words)] = words
    if not i.read_write:
        struct.pack_into('<I', after, 12, (i.stored + sum(after[16:]) - sum(b[16:])) % 2**32)
    return after


def shown(b):
    """The line of an image."""
    stored = int.from_bytes(b[12:16], 'little')
    return 'length %d stored %d bytes %d by 1.6 %s by 1.4 %s' % (len(b), stored, sum(b), judged(b, V1_6), judged(b, V1_4))


def attempt(b, edition, t, k, duration, words):
    """The lines of a rewrite, the number of its refusal, and the image after it."""
    asked = 'by %s track %d turn %d ticks %d bytes %d: ' % (edition.name, t, k, duration, len(words))
    try:
        after = bytes(rewritten(b, edition, t, k, duration, words))
    except Refused as r:
        return [asked + 'refused %d at %d' % (r.number, r.position)], r.number, b
    changes = ''.join(' %d:%02x>%02x' % (p, x, y) for p, (x, y) in enumerate(zip(b, after, strict=True)) if x != y)
    return [asked + 'done' + changes, shown(after)], 0, after


def expected(made):
    lines = []
    for name, (b, *wanted) in made.items():
        given = []
        lines += ['== %s.scp' % name, shown(bytes(b))]
        for edition in V1_6, V1_4:
            answers = [attempt(bytes(b), edition, *words) for words in ATTEMPTS]
            given.append([number for _, number, _ in answers])
            lines += [line for said, _, _ in answers for line in said]
        assert len(wanted) == 2 or given[0] == given[1], name
        for numbers, known in zip(given, wanted):
            assert all(numbers[n] == number for n, number in known.items()), (name, numbers)
    return lines


def examples():
    """The examples of the rules, and those of revision 1.4."""
    for edition, a, stored, moved in (V1_6, A, 980, 885), (V1_4, OLD_A, 972, 877):
        after = attempt(bytes(a), edition, *ATTEMPTS[FOUR])[2]
        assert after[12:16] == struct.pack('<I', moved) and judged(after, edition) == 'valid'
        after = attempt(bytes(put(a, 12, struct.pack('<I', stored + 1))), edition, *ATTEMPTS[FOUR])[2]
        assert after[12:16] == struct.pack('<I', moved + 1) and judged(after, edition) == 'refused 12 at 0'


def main(what):
    examples()
    made = images()
    files = {name + '.scp': bytes(b) for name, (b, *_) in made.items()}
    crate = ROOT / 'crates/rewrite_test'
    names = ''.join(name + '\n' for name in files)
    if what == 'images':
        (crate / 'data').mkdir(parents=True, exist_ok=True)
        for name, b in files.items():
            (crate / 'data' / name).write_bytes(b)
        (crate / 'args').write_text(names)
    elif what == 'same':
        stored = {p.name: p.read_bytes() for p in (crate / 'data').glob('*')}
        sys.exit(stored != files or (crate / 'args').read_text() != names)
    else:
        print('\n'.join(expected(made)))


if __name__ == '__main__':
    main(sys.argv[1])
