"""Csalgodes for Python: the calls that cut, pick, join, compare and move, with bytes in and out."""

from array import array
from collections import namedtuple
from ctypes import CDLL, POINTER, Structure, c_char_p, c_size_t, c_uint8, c_uint16, c_uint32

SLOT = 2048
Order = namedtuple("Order", "t f n")
# a place where two trays differ, and the word that each has there
Difference = namedtuple("Difference", "slot block word first second")
# what both halves of a move are told, two orders first
Move = namedtuple("Move", "old new key length stamp")


class Picked(Structure):
    """What to join. csalgodes.h has the meaning of each number."""

    _fields_ = [(name, c_uint32) for name in ("number", "stamp", "length")]

    def __str__(self):
        return f"number {self.number}, stamp {self.stamp}, length {self.length}"


class Found(Structure):
    """What a join found."""

    _fields_ = [(name, c_uint32) for name in ("number", "usable", "need", "set", "trials")]

    def keepers(self):
        """The keepers that match."""
        return [keeper for keeper in range(1, 17) if self.set >> (keeper - 1) & 1]

    def __str__(self):
        return f"number {self.number}, usable {self.usable}, need {self.need}, trials {self.trials}"


class _Compared(Structure):
    _fields_ = [(name, c_uint32) for name in ("number", "count")]


class _CutAgain(Structure):
    _fields_ = [(name, c_uint32) for name in ("number", "place")]


class _Weighed(Structure):
    _fields_ = [(name, c_uint32) for name in ("number", "letter", "place")]


class _Place(Structure):
    _fields_ = [(name, c_uint16) for name in Difference._fields]


class Refused(Exception):
    """Has the number of the refusal; its text also says what a pick or a join found. The stamp is 0, save
    where a pick found enough letters of that stamp and they do not join."""

    def __init__(self, number, text, stamp=0):
        super().__init__(text)
        self.number = number
        self.stamp = stamp


_read = [c_char_p, c_size_t]
_written = [POINTER(c_uint8), c_size_t]
_words = [POINTER(c_uint16), c_size_t]
_places = [POINTER(_Place), c_size_t]
_keepers = [POINTER(c_uint32), c_size_t]

# by the name that says which calls it has: one with other calls has another
_library = CDLL("libcsalgodes.so.0.6")
_library.cs_cut.argtypes = [c_uint32] * 5 + _read + _words + _written
_library.cs_cut.restype = c_uint32
_library.cs_pick.argtypes = [c_uint32] * 4 + _read
_library.cs_pick.restype = Picked
_library.cs_join.argtypes = [c_uint32] * 6 + _read + _written
_library.cs_join.restype = Found
_library.cs_compare.argtypes = [c_uint32] * 3 + _read + _read + _places
_library.cs_compare.restype = _Compared
_library.cs_move_cut.argtypes = [c_uint32] * 10 + _read + _words + _written
_library.cs_move_cut.restype = _CutAgain
_library.cs_move_weigh.argtypes = [c_uint32] * 9 + _keepers + [c_uint32] + _read + _written
_library.cs_move_weigh.restype = _Weighed


def _numbers(*numbers):
    # ctypes would drop the high bits of a number that is too large; an array refuses it
    return array("I", numbers)


def _lent(memory, kind):
    return (kind * len(memory)).from_buffer(memory), len(memory)


def cut(order, key, stamp, secret, random):
    """The tray of a secret, its key's number in every letter, cut with t random words a byte, each 0..256."""
    numbers = _numbers(*order, key, stamp)
    words = array("H", random)
    tray = bytearray(order.n * SLOT)
    number = _library.cs_cut(
        *numbers, bytes(secret), len(secret), *_lent(words, c_uint16), *_lent(tray, c_uint8)
    )
    if number != 0:
        raise Refused(number, f"number {number}")
    return tray


def pick(order, key, tray):
    """Which stamp and length of this key's letters to join."""
    picked = _library.cs_pick(*_numbers(*order, key), bytes(tray), len(tray))
    if picked.number != 0:
        raise Refused(picked.number, str(picked), picked.stamp)
    return picked


def join(order, key, stamp, length, tray):
    """The secret that this key's letters give, and what the join found."""
    numbers = _numbers(*order, key, stamp, length)
    room = bytearray(length)
    found = _library.cs_join(*numbers, bytes(tray), len(tray), *_lent(room, c_uint8))
    if found.number != 0:
        raise Refused(found.number, str(found))
    return bytes(room), found


def compare(order, first, second):
    """A Difference for each word in which two trays differ, in rising order of slot, block and word."""
    numbers = _numbers(*order)
    # a place for every word of a tray, so that it is never too short
    places = (_Place * (len(first) // 2))()
    compared = _library.cs_compare(
        *numbers, bytes(first), len(first), bytes(second), len(second), places, len(places)
    )
    if compared.number != 0:
        raise Refused(compared.number, f"number {compared.number}")
    found = places[: compared.count]
    return [Difference(*(getattr(place, name) for name in Difference._fields)) for place in found]


def move_cut(move, keeper, letter, random):
    """A tray with a sub-letter for each new keeper, of an old keeper's letter, with t random words a byte."""
    numbers = _numbers(*move.old, *move.new, move.key, move.length, move.stamp, keeper)
    words = array("H", random)
    tray = bytearray(move.new.n * SLOT)
    cut_again = _library.cs_move_cut(
        *numbers, bytes(letter), len(letter), *_lent(words, c_uint16), *_lent(tray, c_uint8)
    )
    if cut_again.number != 0:
        raise Refused(cut_again.number, f"number {cut_again.number}")
    return tray


def move_weigh(move, keepers, keeper, letters):
    """The letter of a new keeper, of its sub-letters end to end, one of each of these old keepers."""
    numbers = _numbers(*move.old, *move.new, move.key, move.length, move.stamp)
    slot = bytearray(SLOT)
    weighed = _library.cs_move_weigh(
        *numbers,
        *_lent(_numbers(*keepers), c_uint32),
        *_numbers(keeper),
        bytes(letters),
        len(letters),
        *_lent(slot, c_uint8),
    )
    if weighed.number != 0:
        raise Refused(weighed.number, f"number {weighed.number}")
    return slot
