"""Csalgodes from Python: cuts a secret for seven keepers, loses one letter, takes another from a liar,
sees by comparing which slots changed, picks what to join, and joins it. For a key of another number the
same letters give nothing. Then there is one liar too many, then too many letters are lost, and the pick
refuses. At last the letters as they were cut are moved to eight new keepers, who get the same secret.

    LD_LIBRARY_PATH=target/library python3 examples/python/example.py
"""

import secrets
import sys

from csalgodes import SLOT, Move, Order, Refused, compare, cut, join, move_cut, move_weigh, pick

ORDER = Order(t=2, f=1, n=7)
# by these numbers letters of one secret are told from letters of another
KEY = 3
OTHER_KEY = 4
STAMP = 1
LENGTH = 32
# where the key moves to, and the old keepers that cut for that, who are t+1
NEW_ORDER = Order(t=3, f=1, n=8)
NEW_STAMP = 2
MOVE = Move(ORDER, NEW_ORDER, KEY, LENGTH, NEW_STAMP)
OLD_KEEPERS = (2, 4, 6)


def slot(keeper):
    return slice((keeper - 1) * SLOT, keeper * SLOT)


def random_words(order):
    """So many as a cut takes under this order. To favour no word, randbelow draws some again."""
    return [secrets.randbelow(257) for _ in range(LENGTH * order.t)]


def cut_new():
    """A new secret and its tray, cut with words of its own: random words are used once."""
    secret = secrets.token_bytes(LENGTH)
    return secret, cut(ORDER, KEY, STAMP, secret, random_words(ORDER))


def compare_and_say(before, after):
    slots = sorted({place.slot for place in compare(ORDER, before, after)})
    print("compare: slots that changed:", *slots)


def pick_and_say(tray):
    """What to join, or None if there is nothing."""
    try:
        picked = pick(ORDER, KEY, tray)
    except Refused as refused:
        print("pick:", refused)
        if refused.number == 6:
            print("refused: too few letters, more keepers must answer")
        elif refused.number in (7, 8):
            print(f"refused: there are enough letters of stamp {refused.stamp}, but they do not join")
        else:
            print("refused: csalgodes.h says why")
        return None
    print("pick:", picked)
    return picked


def join_and_say(tray):
    """The secret that the pick names, or None if there is none. Where newer letters are lost, it is an older
    secret: whoever knows the newest stamp compares it with the one picked."""
    picked = pick_and_say(tray)
    if picked is None:
        return None
    secret, found = join(ORDER, KEY, picked.stamp, picked.length, tray)
    print(f"join for key {KEY}:", found)
    print("agree:", *found.keepers())
    return secret


def refused_for_other_key(tray):
    """Whether the join, told another key's number, has no letter to use."""
    try:
        join(ORDER, OTHER_KEY, STAMP, LENGTH, tray)
    except Refused as refused:
        print(f"join for key {OTHER_KEY}:", refused)
        return refused.number == 6
    return False


def cut_again(keeper, tray):
    """An old keeper cuts its letter again, with words of its own: a sub-letter for each new keeper."""
    return move_cut(MOVE, keeper, tray[slot(keeper)], random_words(NEW_ORDER))


def weigh(keeper, trays):
    """A new keeper weighs its sub-letters, one of each old keeper, into its letter."""
    return move_weigh(MOVE, OLD_KEEPERS, keeper, b"".join(tray[slot(keeper)] for tray in trays))


def move_key(tray):
    """Moves the key. Each sub-letter goes from one keeper to one other, and nobody has the key meanwhile."""
    trays = [cut_again(keeper, tray) for keeper in OLD_KEEPERS]
    print(f"move: for {NEW_ORDER.n} new keepers cut:", *OLD_KEEPERS)
    return b"".join(weigh(keeper, trays) for keeper in range(1, NEW_ORDER.n + 1))


def join_moved(tray):
    """The secret that the new letters give. A lie of one old keeper shows in it alone."""
    secret, found = join(NEW_ORDER, KEY, NEW_STAMP, LENGTH, tray)
    print("join of the new letters:", found)
    return secret


def main():
    secret, tray = cut_new()
    _, other_tray = cut_new()
    print(f"cut: {LENGTH} bytes into {ORDER.n} letters")
    as_cut = bytes(tray)

    # Keeper 3 lies with a letter of another cut, which every check takes for good.
    tray[slot(3)] = other_tray[slot(3)]
    tray[slot(5)] = bytes(SLOT)
    compare_and_say(as_cut, tray)
    if join_and_say(tray) != secret:
        sys.exit("the secret did not come back")
    print("the secret came back")

    if not refused_for_other_key(tray):
        sys.exit(f"the join for key {OTHER_KEY} did not give 6")

    # Keeper 4 lies too, one more than the order allows for.
    tray[slot(4)] = other_tray[slot(4)]
    if join_and_say(tray) is not None:
        sys.exit("letters of two secrets were joined")

    for silent in (1, 2, 4):
        tray[slot(silent)] = bytes(SLOT)
    if join_and_say(tray) is not None:
        sys.exit("three letters were joined")

    # The old letters stay until the new ones are seen to give the same secret.
    if join_moved(move_key(as_cut)) != secret:
        sys.exit("the secret was not moved")
    print("the new letters give the same secret")


main()
