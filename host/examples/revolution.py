#!/usr/bin/env python3
"""Prints a revolution of an SCP image: its duration, its words with their file offset, and its intervals in ticks. The image is read by
revision 1.6, or by the one that is named.

    cc -shared -Wl,--whole-archive crates/scp_c/out/libscp_c.a -Wl,--no-whole-archive -o libscp.so
    python3 host/examples/revolution.py ./libscp.so crates/scp_test/data/a.scp 0 0
    python3 host/examples/revolution.py ./libscp.so OLD.scp 0 0 1.4
"""
import ctypes
import sys
from ctypes import POINTER, c_char_p, c_size_t, c_uint32, c_uint64

EDITIONS = {'1.4': 14, '1.6': 16}


def load(path):
    """The library, with the types of the two functions as include/scp.h declares them."""
    library = ctypes.CDLL(path)
    numbers = [POINTER(c_uint64), c_size_t]
    library.scp_revolution.argtypes = [c_char_p, c_size_t, c_uint32, c_uint32, c_uint32, *numbers]
    library.scp_intervals.argtypes = [c_char_p, c_size_t, *numbers, *numbers]
    library.scp_revolution.restype = library.scp_intervals.restype = c_uint64
    return library


def check(file, code):
    """Ends where the library refused."""
    if code != 0:
        sys.exit(f'revolution: {file}: refused {code % 256} at {code // 256} (enum scp_refusal in scp.h says why)')


def number(text):
    """A number of 32 bits; ctypes would cut a larger one without a word."""
    if not (text.isascii() and text.isdigit() and int(text) < 2**32):
        sys.exit(f'revolution: {text}: not a number from 0 to 4294967295')
    return int(text)


def edition_of(name):
    """The number of the edition of a name."""
    if name not in EDITIONS:
        sys.exit(f'revolution: {name}: neither 1.4 nor 1.6')
    return EDITIONS[name]


def main():
    if len(sys.argv) not in (5, 6):
        print('usage: revolution.py LIBRARY FILE TRACK REVOLUTION [EDITION]', file=sys.stderr)
        sys.exit(2)
    path, file, track, revolution, *named = sys.argv[1:]
    track, revolution, edition = number(track), number(revolution), edition_of(*named or ['1.6'])
    try:
        library = load(path)
        with open(file, 'rb') as source:
            image = source.read()
    except OSError as error:
        sys.exit(f'revolution: {error}')

    found = (c_uint64 * 3)()
    check(file, library.scp_revolution(image, len(image), edition, track, revolution, found, 3))
    duration, words, offset = found

    flux = image[offset:offset + 2 * words]
    times, filled = (c_uint64 * words)(), (c_uint64 * 2)()
    check(file, library.scp_intervals(flux, len(flux), times, words, filled, 2))

    print(f'duration {duration} words {words} offset {offset}')
    count, open_ticks = filled
    for ticks in times[:count]:
        print(ticks)
    if open_ticks:
        print(f'open {open_ticks}')


main()
