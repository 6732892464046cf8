#!/usr/bin/env python3
"""Writes to standard output what the program crates/flux_test must print.

The rules are worked out here from the text alone, by another route than the library's: intervals by
splitting the list of words at its words that are not zero, the words that close them by looking which are
not zero, words by repeated subtraction. Run it as
    python3 tests/flux_expected.py > crates/flux_test/stdout
"""
import struct

LIMIT_BYTES = 1 << 28
LARGEST = (1 << 64) - 1


def words_of(flux):
    return list(struct.unpack_from('>%dH' % (len(flux) // 2), flux))


def read_all(flux):
    """Intervals and open time of flux bytes."""
    intervals, run = [], []
    for word in words_of(flux):
        run.append(word)
        if word:
            intervals.append(sum(w or 65536 for w in run))
            run = []
    return intervals, 65536 * len(run)


def flux_refused(flux):
    return len(flux) % 2 or len(flux) > LIMIT_BYTES


def refused(number, position=0):
    return 'refused %d at %d' % (number, position)


def digest(values):
    return '%d sum %d' % (len(values), sum(values))


def lent(places, first=7):
    """What a buffer of so many places holds before a call."""
    return list(range(first, first + places))


def fill(flux, *lists):
    """Puts lists into buffers, each with its buffer, unless one of these is too short; gives the answer."""
    if flux_refused(flux):
        return refused(17)
    if any(len(values) > len(buffer) for values, buffer in lists):
        return refused(15)
    for values, buffer in lists:
        buffer[:len(values)] = values
    return 'filled %d open %d' % (len(lists[0][0]), read_all(flux)[1])


def read(flux, places):
    flux, times = bytes(flux), lent(places)
    said = fill(flux, (read_all(flux)[0], times))
    print('read', digest(flux), 'leaves', *times, said)


def closed(flux, places, more_places):
    flux, times, closings = bytes(flux), lent(places), lent(more_places, 17)
    closing = [number for number, word in enumerate(words_of(flux)) if word]
    said = fill(flux, (read_all(flux)[0], times), (closing, closings))
    print('closed', digest(flux), 'leaves', *times, 'and', *closings, said)


def step(flux, word):
    flux = bytes(flux)
    if flux_refused(flux):
        said = refused(17)
    else:
        left = words_of(flux)[word:]
        closing = next((i for i, w in enumerate(left) if w), None)
        if closing is None:
            said = 'open %d next %d' % (65536 * len(left), word)
        else:
            said = 'interval %d closing %d open 0 next %d' % (65536 * closing + left[closing], word + closing, word + closing + 1)
    print('step', word, said)


def flux_of(times):
    """The bytes of times, or the index of the first that words cannot give."""
    out = bytearray()
    for index, time in enumerate(times):
        if not 1 <= time <= 0xFFFFFFFF or time & 0xFFFF == 0:
            return index
        while time > 65536:
            out += b'\0\0'
            time -= 65536
        out += struct.pack('>H', time)
    return out


def write(times, room, show):
    """Prints what is left in the room and the answer, and returns the room."""
    made, room = flux_of(times), bytearray(room)
    if isinstance(made, int):
        said = refused(16, made)
    elif len(made) > len(room):
        said = refused(15)
    else:
        room[:len(made)] = made
        said = 'bytes %d' % len(made)
    print('write', *times, 'leaves', *show(room), said)
    return room


def short(flux):
    for n in range(7):
        read(flux, n)
        closed(flux, n, 6)
        closed(flux, 6, n)
        step(flux, n)
    step(flux, LARGEST)


def long(flux):
    for n in range(3):
        read(flux, n)
    for places in (1, 2), (2, 1), (2, 2):
        closed(flux, *places)
    for word in 0, 65535, 65536:
        step(flux, word)


def times(*ticks):
    for n in range(9):
        write(ticks, lent(n), lambda b: ['%02x' % v for v in b])


def back(ticks, room):
    long(write(ticks, [0xAA] * room, lambda b: [digest(b)]))


def main():
    short(b'')
    short(bytes.fromhex('00A00000000100F0'))
    short(bytes.fromhex('000000001234000000000000'))
    short([0, 1, 0, 2, 0])
    short([1])

    times()
    times(258, 772)
    times(1, 65537)
    times(1, 65537, 0)
    times(1, 2, 131072)
    for t in 0, 1, 65535, 65536, 65537, 4294967296, 4294967297, LARGEST:
        times(t)

    most = 4294967295
    for room in 131071, 131072, 131074:
        back([most], room)
    for room in 131073, 131074:
        back([most, 1], room)

    flux = bytearray(131072)
    long(flux)
    flux[-1] = 1
    long(flux)


main()
