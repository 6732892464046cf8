#!/usr/bin/env python3
"""Lists of calls for crates/replay_test, each on an image of its own, and what they must print, worked out call by call from the rules.

    python3 tests/replay_expected.py stdin       writes images, calls and words to crates/replay_test/stdin
    python3 tests/replay_expected.py stdout      prints what crates/replay_test must print
    python3 tests/replay_expected.py same        fails where what is stored there is not what is made here
"""
import pathlib
import struct
import sys

sys.dont_write_bytecode = True
import rewrite_expected
import scp_images
from scp_images import A, V1_4, V1_6, Image, Refused, judged

STDIN = pathlib.Path(__file__).resolve().parent.parent / 'crates/replay_test/stdin'
# The words of image A rewritten, a single one, those that revolution 0 of the image string_in_flux has, those of image A, and the third with
# 0x97 for a letter of the string.
WORDS = bytes.fromhex('01400000000100F0' '0005' '141B222907007878' '00A00000000100F0' '141B222907009778')
# What follows the last call is no row, since a row has 7 numbers.
LEFT_OVER = [1] * 6
VALIDATE, HEADER, FOOTER, TRACK, REVOLUTION, FLUX, SPEED, SPEEDS, REWRITE, UNKNOWN = *range(9), 99


# ---- making the lists

def ask(kind, edition, track=0, revolution=0):
    return kind, track, revolution, 0, 0, 0, edition


def rewrite(edition, duration, start, size, track=0, revolution=0):
    return REWRITE, track, revolution, duration, start, size, edition


def alike(n):
    """Calls by one edition: all questions, rewrites with what then reads as they put it, and odd arguments."""
    return [
        *(ask(kind, n) for kind in (VALIDATE, HEADER, FOOTER, TRACK, REVOLUTION, FLUX, SPEED, SPEEDS)),
        rewrite(n, 8_000_000, 0, 8), ask(VALIDATE, n), rewrite(n, 2**32 + 1_234_567, 8, 2),
        ask(REVOLUTION, n), ask(FLUX, n), ask(SPEED, n), rewrite(n, 5, 0, 8), rewrite(n, 5, 0, 2, track=1),
        ask(UNKNOWN, n), ask(REVOLUTION, n, track=2**40), rewrite(n, 0, 1000, 8), ask(SPEEDS, n), ask(VALIDATE, n),
    ]


def mixed():
    """Calls by both editions on an image whose string 2 lies over the flux of revolution 0: what 1.6 claims, 1.4 overwrites.

    Revolution 1 is never rewritten, and yet no longer reads by 1.6. The calls, and the number and position of those that are refused.
    """
    return [
        ask(VALIDATE, 16), *(ask(FOOTER, n) for n in (14, 16, 0, 15, 2**32 + 14, 2**64 - 1)),
        ask(REVOLUTION, 16, revolution=1), rewrite(16, 8_000_000, 0, 8), rewrite(14, 8_000_000, 0, 8),
        ask(REVOLUTION, 16, revolution=1), ask(REVOLUTION, 14, revolution=1), ask(VALIDATE, 16), ask(VALIDATE, 14),
        ask(FOOTER, 2**64 - 1), rewrite(16, 5, 8, 2, revolution=1), ask(TRACK, 14, track=166),
        # the former words again
        rewrite(14, 500, 10, 8), ask(REVOLUTION, 16, revolution=1), ask(FOOTER, 16), ask(VALIDATE, 16),
    ], {8: (18, 0), 10: (8, 2), 12: (8, 2), 14: (8, 2), 15: (8, 2), 16: (13, 0)}


def no_text():
    """R-19: of the same image a call by 1.4 leaves a string that is no text. Then every call by 1.6 is refused, and none by 1.4, until the former
    words are put back."""
    return [
        ask(VALIDATE, 16), rewrite(14, 600, 26, 8), *(ask(kind, 16) for kind in range(8)), rewrite(16, 5, 8, 2, revolution=1), ask(UNKNOWN, 16),
        *(ask(kind, 14) for kind in (VALIDATE, FOOTER, REVOLUTION)), rewrite(14, 500, 10, 8),
        *(ask(kind, 16) for kind in (VALIDATE, FOOTER, TRACK, FLUX)), ask(VALIDATE, 14),
    ], {call: (19, 2) for call in range(2, 12)}


def around(calls):
    """Each rewrite of image A with what the revolution reads then, and whether the image is valid."""
    read = [ask(REVOLUTION, 16), ask(FLUX, 16), ask(VALIDATE, 16)]
    return [ask(HEADER, 16), *read, *(one for call in calls for one in (call, *read)), *[ask(HEADER, 16)] * (17 - 4 * len(calls))]


def taken_back():
    """U-5: image A rewritten twice with as many words, and then what it was before the second rewrite and before the first put back."""
    return around([rewrite(16, 7_000_000, 0, 8), rewrite(16, 9_000_000, 10, 8), rewrite(16, 7_000_000, 0, 8), rewrite(16, 8_000_000, 18, 8)])


def shorter():
    """U-8: image A rewritten with one word; what it was before is now too long, and is refused."""
    return around([rewrite(16, 7_000_000, 8, 2), rewrite(16, 8_000_000, 18, 8)])


def lists():
    """Name, image, places for the answers, calls, and which of them are refused: {call: (number, position)}."""
    refused = {14: (17, 0), 15: (13, 0), 17: (13, 0)}
    return [
        ('a place too few', A, 335, alike(16), {}),
        ('a', A, 339, alike(16), refused),
        ('old_footer', scp_images.images()['old_footer'], 336, alike(14), refused),
        ('string_in_flux', rewrite_expected.images()['string_in_flux'][0], 336, *mixed()),
        ('text_in_flux', rewrite_expected.images()['string_in_flux'][0], 336, *no_text()),
        ('taken_back', A, 336, taken_back(), {}),
        ('shorter', A, 336, shorter(), {8: (17, 0)}),
    ]


def stdin(made):
    """For each list its image, the numbers of its calls, each of 8 bytes, and the words."""
    numbers = lambda calls: struct.pack('<153Q', *(n for call in calls for n in call), *LEFT_OVER)
    return b''.join(bytes(b) + numbers(calls) + WORDS for _, b, _, calls, _ in made)


# ---- answering

def bits(duration):
    return struct.unpack('<Q', struct.pack('<d', 2_400_000_000 / duration))[0]


def turn(i, t, k):
    if t not in i.tracks:
        raise Refused(13)
    if k >= i.turns:
        raise Refused(14)
    return i.tracks[t][k]


def footer(i):
    if i.footer is None:
        return [0]
    offsets, created, modified, versions = i.footer
    return [1, *offsets, created % 2**64, modified % 2**64, *versions]


def answer(b, kind, t, k, duration, start, size, edition):
    """The values of a call's answer, and the image after it."""
    t, k, edition = min(t, 2**32 - 1), min(k, 2**32 - 1), V1_4 if edition == 14 else V1_6
    if kind == REWRITE:
        return [], bytes(rewrite_expected.rewritten(b, edition, t, k, duration % 2**32, WORDS[start:start + size]))
    i = Image(b, edition)
    if kind == HEADER:
        return [i.version, i.disk, i.turns, i.start, i.end, i.flags, i.width, i.heads, i.stored], b
    if kind == FOOTER:
        return footer(i), b
    if kind == TRACK:
        turn(i, t, 0)
        return [t // 2, t % 2, i.entries[t], i.turns], b
    if kind == REVOLUTION:
        return list(turn(i, t, k)), b
    if kind == FLUX:
        _, count, place = turn(i, t, k)
        return [place, 2 * count, sum(b[place:place + 2 * count]) % 2**32], b
    if kind == SPEED:
        spent = turn(i, t, k)[0]
        return [1, bits(spent)] if spent else [0], b
    if kind == SPEEDS:
        turn(i, t, 0)
        spent = [d for d, _, _ in i.tracks[t] if d]
        return [1, bits(max(spent)), bits(min(spent))] if spent else [0], b
    i.judge()
    return [], b


def replayed(b, calls):
    """The rows of the answers, which calls are refused, and the image after all of them."""
    rows, refused = [], {}
    for n, call in enumerate(calls):
        try:
            values, b = answer(b, *call)
            row = [0, 0, *values]
        except Refused as r:
            row = refused[n] = r.number, r.position
        rows += [*row, *[0] * (16 - len(row))]
    return rows, refused, b


# ---- printing

def printed(numbers):
    lines = [numbers[i:i + 16] for i in range(0, len(numbers), 16)]
    out = '\n'.join(''.join('%d ' % n for n in line) for line in lines)
    return out + ('\n' if len(numbers) % 16 == 0 else '')


def shown(b):
    valid = ['valid by %s ' % edition.name for edition in (V1_6, V1_4) if judged(b, edition) == 'valid']
    return 'image %d %d %s' % (struct.unpack_from('<I', b, 12)[0], sum(b), ''.join(valid))


def expected(made):
    for name, b, places, calls, known in made:
        verdict, rows, refused, after = 'done', *replayed(bytes(b), calls)
        if places < len(rows):
            verdict, rows, refused, after = 'refused 15 at 0 ', [], {}, bytes(b)
        assert refused == known, (name, refused)
        assert name != 'taken_back' or after == bytes(b)
        assert name != 'shorter' or after != bytes(b)
        yield from ('== ' + name, verdict, printed(rows + [7] * (places - len(rows))), shown(after))


def main(what):
    made = lists()
    if what == 'stdin':
        STDIN.write_bytes(stdin(made))
    elif what == 'same':
        sys.exit(STDIN.read_bytes() != stdin(made))
    else:
        print('\n'.join(expected(made)))


if __name__ == '__main__':
    main(sys.argv[1])
