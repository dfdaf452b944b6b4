/*
 * Csalgodes: a signing key is cut into letters, and comes back right or not at all.
 *
 * A secret is cut into letters, one for each of n keepers. Later the letters that can still be had are
 * joined. Some may be old, some damaged, some of another key, up to f of them lies; the secret comes back,
 * or a number says why not. The words that the calls use:
 *
 *    secret   what is cut: the bytes of a signing key, 1..952 of them.
 *    keeper   one who keeps a letter. Keepers are numbered 1..n.
 *    t        any t keepers together learn nothing of the secret but its length. t is 1..7.
 *    f        up to so many of the letters joined may be lies. f is 0..t.
 *    n        how many keepers there are, from t+4f+1 to 16.
 *    order    t, f and n together. Whoever cuts a secret, or keeps or joins its letters, is told the same order.
 *    key      the number of a signing key, 0..255, and not its bytes, which are the secret. By the number
 *             letters of one secret are told from letters of another: the boot key, say, has 1 and the mirror
 *             key 2. Whoever cuts chooses it, takes the same for every cut of that secret, and gives it to no
 *             other, save a new one that takes its place. Whoever keeps or joins letters is told it beside
 *             the order. It is no secret, and helps against mix-ups alone: a liar can write any number.
 *             Letters that were cut before version 0.5.0 are letters of key 0, and a library before it reads no
 *             others.
 *    word     a number 0..256. Sharing counts modulo 257, so a word has one value more than a byte.
 *    letter   what one keeper keeps of one cut: the order, the key's number, the keeper's number, the stamp,
 *             the secret's length, one share word for each byte of the secret, and check words. These find
 *             damage. They do not stop a liar, who can write good ones. It is 1 to 4 blocks of 512 bytes; the
 *             project's docs/FORMAT.md has every byte.
 *    slot     2048 bytes, which hold one letter, or all zeros where there is none.
 *    tray     n slots end to end. Slot x, counted from 1, is keeper x's.
 *    stamp    the number of a cut, 1..4294967295. Whoever cuts chooses it, and takes a greater one for each
 *             new cut of a key: desks keep the greatest and refuse an older. No two cuts of one key may have
 *             the same: if order and length are the same too, nothing tells their letters apart, and to those
 *             of one the others are lies. Cuts of keys with different numbers may have the same stamp.
 *    desk     where a keeper keeps his letter of one key: one slot, all zeros at first, changed by cs_store
 *             alone. Who keeps letters of several keys has a desk for each.
 *    move     a key comes to new keepers, of a new order, and nobody joins it: some of the old keepers cut
 *             their letters again, and each new keeper weighs what they cut for it.
 *
 * What one old keeper cuts for one new keeper is a sub-letter. It lies in a slot as a letter does, and has the
 * old keeper's number beside all that a letter has. It is no letter: cs_read, cs_store and cs_move_cut answer
 * 11 to it, and a pick and a join set it aside.
 *
 * For C and C++ on x86-64 Linux. A program is built after library/build by the first line, after
 * library/install by the second:
 *
 *    gcc program.c -I target/library target/library/libcsalgodes.a
 *    gcc program.c $(pkg-config --cflags --libs csalgodes)
 *
 * Each call takes any values of its types: what is wrong with them is answered by a number, never by a
 * fault. What is lent is a pointer and the count of elements behind it, which must really be there. Where
 * the count is 0 the pointer is not looked at, and may be NULL. A part that a call writes must not overlap
 * another that it is lent. No call writes anything but what its 'Writes' line says, and where the number is
 * not 0, none writes at all.
 *
 * No call allocates memory, or remembers anything for the next one. Threads may call at once, if none
 * writes what another is lent. A call takes less than 64 KB of stack, and does not wipe it: after a
 * cut, a pick or a join, words of the secret stay there until something overwrites them, and after a call of
 * the move words of letters do.
 */
#ifndef CSALGODES_H
#define CSALGODES_H

#include <stddef.h>
#include <stdint.h>

#ifdef __cplusplus
extern "C" {
#endif

/*
 * The version. While the major number is 0, each minor one may change the calls: the shared library's
 * name has both, so that a program runs with the calls that it was built for or does not start.
 */
#define CSALGODES_VERSION_MAJOR 0
#define CSALGODES_VERSION_MINOR 6
#define CSALGODES_VERSION_PATCH 0

/* As one number, to be compared: 0.6.0 is 600, and 1.2.3 would be 10203. */
#define CSALGODES_VERSION \
    (CSALGODES_VERSION_MAJOR * 10000 + CSALGODES_VERSION_MINOR * 100 + CSALGODES_VERSION_PATCH)

/* The sizes, for arrays that hold whatever is lawful, and the greatest numbers. */
enum {
    CS_LONGEST_SECRET = 952, /* bytes */
    CS_SLOT = 2048,          /* bytes of a slot, which holds one letter */
    CS_GREATEST_T = 7,
    CS_MOST_KEEPERS = 16,
    CS_LARGEST_TRAY = CS_MOST_KEEPERS * CS_SLOT,                 /* bytes; a tray has n * CS_SLOT */
    CS_MOST_RANDOM_WORDS = CS_GREATEST_T * CS_LONGEST_SECRET,    /* a cut takes t for each byte */
    CS_GREATEST_WORD = 256,  /* of random words, as of any */
    CS_GREATEST_KEY = 255,   /* of the keys' numbers, which begin with 0 */
    CS_MOST_DIFFERENCES = CS_LARGEST_TRAY / 2                    /* every word of two trays */
};

/*
 * The numbers that a call can give. Where several apply the smallest is given, save in a letter and at the
 * desk, which judge in an order of their own. Unless stated, every other number in a refusal's result is 0.
 */
enum {
    CS_DONE = 0,
    CS_ORDER_UNLAWFUL = 1,      /* an order is not lawful, the key's number is above 255, or the number of a
                                   keeper that is told is outside 1..n */
    CS_LENGTH_OUT_OF_RANGE = 2, /* the secret's length is outside 1..952 */
    CS_STAMP_ZERO = 3,          /* the stamp is 0 */
    CS_WRONG_SIZE = 4,          /* a lent part has the wrong length */
    CS_RANDOM_TOO_GREAT = 5,    /* a random word is above 256 */
    CS_TOO_FEW = 6,             /* fewer than t+f+1 usable letters; for the pick, no group that large */
    CS_NO_AGREEMENT = 7,        /* the letters differ: no polynomials match enough of them; for the pick,
                                   those of the greatest group, and no other group joins */
    CS_NOT_BYTES = 8,           /* they match, but some constant is 256, which is no byte; for the pick,
                                   in the greatest group, and no other group joins */
    CS_WORD_TOO_GREAT = 9,      /* a word in a block is above 256 */
    CS_CHECK_WRONG = 10,        /* a check word is wrong: the block is damaged */
    CS_MARK_WRONG = 11,         /* word 0 or 1 of a block is wrong: no letter, or none of this format */
    CS_HEADER_WRONG = 12,       /* another header word is wrong */
    CS_END_NOT_ZERO = 13,       /* bytes or share words past the end aren't zero */
    CS_OLDER = 14,              /* older than the letter held */
    CS_SAME_STAMP = 15,         /* the same stamp as the letter held, other bytes */
    CS_OTHER_DESK = 16,         /* a good letter, but not of this desk's order, key and keeper; in a move, a
                                   good letter or sub-letter, but not of what is told */
    CS_NOTHING_HELD = 17,       /* nothing good of this desk's order, key and keeper is held */
    CS_LIST_TOO_SHORT = 18,     /* the list lent has fewer places than there are differences */
    CS_OLD_KEEPERS_WRONG = 19,  /* an old keeper is told twice; or its sub-letter is missing or there twice,
                                   is of one not told, or names several in its blocks */
    CS_STAMP_NOT_ABOVE = 20     /* the stamp is not above that of the old letter */
};

/* What a slot reads as. */
typedef struct {
    uint32_t number; /* 0, 4, or 9..13 */
    uint32_t place;  /* of 9..12: the place of the first faulty block, from 0; else 0 */
    uint32_t t, f, n;
    uint32_t key;    /* the key's number, 0..255 */
    uint32_t keeper;
    uint32_t stamp;
    uint32_t length; /* of the secret, in bytes */
} cs_read_result;

/*
 * Reads a slot. A good letter answers 0 and its header's numbers; any other slot its number, and
 * its place where a block is at fault.
 *
 * Lent: the slot. Any length may be lent, and any but 2048 is 4.
 * Writes: nothing.
 */
cs_read_result cs_read(const uint8_t *slot, size_t slot_length);

/*
 * Cuts a secret into a tray: keeper x's letter goes to slot x, with the key's number and the stamp in it.
 * Byte i of the secret is the constant of a polynomial whose coefficients of x, x^2, .. x^t are random words
 * i*t .. i*t+t-1; keeper x's share word i is its value at x, modulo 257. Each random word is 0..256, every
 * value as likely as any other, 0 too. Nobody may be able to guess them, and no two cuts may use the same,
 * whether of one key or of two.
 *
 * Lent: the secret, 1..952 bytes; exactly t random words for each of them; the tray, n*2048 bytes.
 * Answers: 0, 1, 2, 3, 4 or 5.
 * Writes: the whole tray where the answer is 0, else nothing.
 */
uint32_t cs_cut(uint32_t t, uint32_t f, uint32_t n, uint32_t key, uint32_t stamp,
                const uint8_t *secret, size_t secret_length,
                const uint16_t *random, size_t random_count,
                uint8_t *tray, size_t tray_length);

/* What a join found. */
typedef struct {
    uint32_t number; /* 0, 1, 2, 3, 4, 6, 7 or 8 */
    uint32_t usable; /* of 0, 6, 7, 8: m, the letters that can be used; else 0 */
    uint32_t need;   /* of 0, 6, 7, 8: how many of them must match, the larger of m-f and t+f+1; else 0 */
    uint32_t set;    /* of 0 and 8: the keepers that match, keeper x being bit x-1; else 0 */
    uint32_t trials; /* of 0, 7, 8: how many sets of t+1 letters a hunt would try, 1..12870; else 0 */
} cs_join_result;

/*
 * Joins the usable letters of a tray: those that read as good and have this order, key, stamp and length and
 * their own slot's keeper number. All other slots are set aside: a letter with another key's number counts
 * for no more than an empty slot. Say that the tray was cut, and then at most f usable letters came to differ
 * from the cut, and any others to be unusable. Then the secret given is never a wrong one. The right one is
 * given if t+2f+1 letters are usable, or if t+f+1 usable ones are as they were cut.
 *
 * The trials say how long a hunt would be that takes one set of t+1 usable keepers after the other, in
 * dictionary order of rising keeper numbers: for t=2 {1,2,3}, {1,2,4} and so on. A set's polynomials are
 * those of degree at most t through its letters, one for each byte. For 0 and 8 the sets are counted up to
 * and including the first whose polynomials match at least need letters. For 7 all of them are, m choose
 * t+1: there are never more, and that is at most 12,870. The count does not say how long the join took: it
 * is computed, and no set is tried for it.
 *
 * Lent: the tray, n*2048 bytes; room for exactly length bytes.
 * Writes: the secret to all of the room where the number is 0, else nothing.
 */
cs_join_result cs_join(uint32_t t, uint32_t f, uint32_t n, uint32_t key, uint32_t stamp, uint32_t length,
                       const uint8_t *tray, size_t tray_length,
                       uint8_t *room, size_t room_length);

/* What became of a letter at the desk. */
typedef struct {
    uint32_t number; /* 0, 1, 4, or 9..16 */
    uint32_t place;  /* of 9..12: the place of the first faulty block, from 0; else 0 */
} cs_store_result;

/*
 * Offers a letter to the desk of this order, key and keeper. It is judged in this order: 1, 4, the letter's
 * own 9..13, 16, 14, 15. Where the number is 0 the desk then holds it; the letter that it held already is
 * no change. A held slot that isn't good for this desk counts as empty, and that is so where it holds a good
 * letter of another order, key or keeper: tell a desk the same at every call, or the next letter of what was
 * told by mistake takes the place of the one held.
 *
 * Lent: the held slot, 2048 bytes; the letter, 2048 bytes.
 * Writes: the letter to all of the held slot where the number is 0, else nothing.
 */
cs_store_result cs_store(uint32_t t, uint32_t f, uint32_t n, uint32_t key, uint32_t keeper,
                         uint8_t *held, size_t held_length,
                         const uint8_t *letter, size_t letter_length);

/*
 * Whether the desk of this order, key and keeper has a letter to hand back. 0: the held slot is that letter.
 * Else nothing is to be handed back, and the number is 1, 4 or 17, judged in that order. It is 17 too where
 * a good letter of another order, key or keeper is held.
 *
 * Lent: the held slot, 2048 bytes.
 * Writes: nothing.
 */
uint32_t cs_fetch(uint32_t t, uint32_t f, uint32_t n, uint32_t key, uint32_t keeper,
                  const uint8_t *held, size_t held_length);

/* What to join of a tray. */
typedef struct {
    uint32_t number; /* 0, 1, 4, 6, 7 or 8 */
    uint32_t stamp;  /* of 0, 7 and 8: the stamp of the group answered; else 0 */
    uint32_t length; /* of 0, 7 and 8: the length of its secret, in bytes; else 0 */
} cs_pick_result;

/*
 * Picks what to join. The tray's good letters of this order and key, each in its own keeper's slot, are
 * grouped by stamp and length. The groups of at least t+f+1 letters are gone through, the greatest stamp
 * first, and of one stamp the greatest length first. The pick answers 0 with the stamp and length of the
 * first group whose join gives 0: told these and the same order and key, cs_join gives the secret. If there
 * are such groups and none joins, it answers for the first of them, the greatest group: the number of its
 * join, 7 or 8, its stamp and length.
 *
 * A clerk's machine may break down when only a few letters of a new cut are sent. If they are just enough for
 * a group and one of them is a lie, they do not join, and the pick goes on to the older letters: it answers
 * the older stamp, and whoever joins that gets the older secret. That takes t+f+1 keepers who still have the
 * older letter; a desk that took the newer one has it no more. No answer says that nothing newer was cut, and
 * none can: all newer letters may be missing from the tray. A caller who knows the stamp of the key's newest
 * cut compares it with the one answered. One who does not must reckon with an older secret.
 *
 * It makes a join for each stamp and length that at least t+f+1 slots say beside this order and key, until
 * one gives 0: mostly that is one, and it is never more than eight. It takes about their time.
 *
 * Lent: the tray, n*2048 bytes.
 * Writes: nothing.
 */
cs_pick_result cs_pick(uint32_t t, uint32_t f, uint32_t n, uint32_t key,
                       const uint8_t *tray, size_t tray_length);

/* A place where two trays differ, and what stands there: any two bytes, high byte first, as a number. */
typedef struct {
    uint16_t slot;   /* 1..n */
    uint16_t block;  /* of the slot, 0..3; a block has 512 bytes */
    uint16_t word;   /* of the block, 0..255; a word has 2 bytes */
    uint16_t first;  /* the first tray's word, 0..65535 */
    uint16_t second; /* the second tray's */
} cs_difference;

/* What a comparison found. */
typedef struct {
    uint32_t number; /* 0, 1, 4 or 18 */
    uint32_t count;  /* of 0 and 18: how many words differ; else 0 */
} cs_compare_result;

/*
 * Compares two trays of one order, word by word, whatever they hold: no letter is read, so no key is told,
 * and damaged blocks are compared like others. Each place where they differ goes to the list once, in rising
 * order of slot, block and word. If the list has too few places for all of them, the number is 18, nothing is
 * written, and the count says how many places it takes. CS_MOST_DIFFERENCES are enough for any two trays.
 *
 * Lent: both trays, n*2048 bytes each; the list, of any count of places.
 * Writes: the first places of the list, as many as count says, where the number is 0, else nothing.
 */
cs_compare_result cs_compare(uint32_t t, uint32_t f, uint32_t n,
                             const uint8_t *first, size_t first_length,
                             const uint8_t *second, size_t second_length,
                             cs_difference *list, size_t list_count);

/* What became of an old keeper's letter. */
typedef struct {
    uint32_t number; /* 0, 1, 2, 3, 4, 5, 9..13, 16 or 20 */
    uint32_t place;  /* of 9..12: the place of the first faulty block, from 0; else 0 */
} cs_move_cut_result;

/*
 * The first half of a move, once at each of exactly old_t+1 old keepers: cuts its letter again. Of each share
 * word the letter has, it makes new ones as cs_cut does of each byte of a secret, under the new order t, f and
 * n. New keeper x's sub-letter goes to slot x. It has the new order and stamp; the key's number and the
 * length stay, and keeper is the old keeper's number. All that cut for one move are told the same but for
 * their own number.
 *
 * The random words are drawn as for cs_cut: nobody may be able to guess them, and none may be used again, not
 * at another old keeper, not for another move, not in a cut. Each sub-letter goes to its new keeper alone:
 * more than t of one tray are as good as the letter.
 *
 * It is judged in this order: 1, 2, 3, 4, 5, the letter's own 9..13, 16 where it is of another old order, key,
 * length or keeper, 20 where its stamp is not less than the one told. The old stamp is not told.
 *
 * Lent: the letter, 2048 bytes; exactly t random words for each byte of the length; the tray, n*2048 bytes.
 * Writes: the whole tray where the number is 0, else nothing.
 */
cs_move_cut_result cs_move_cut(uint32_t old_t, uint32_t old_f, uint32_t old_n,
                               uint32_t t, uint32_t f, uint32_t n,
                               uint32_t key, uint32_t length, uint32_t stamp, uint32_t keeper,
                               const uint8_t *letter, size_t letter_length,
                               const uint16_t *random, size_t random_count,
                               uint8_t *tray, size_t tray_length);

/* What became of a new keeper's sub-letters. */
typedef struct {
    uint32_t number; /* 0, 1, 2, 3, 4, 9..13, 16 or 19 */
    uint32_t letter; /* of 9..13 and 16: which sub-letter, from 0; else 0 */
    uint32_t place;  /* of 9..12: the place of its first faulty block, from 0; else 0 */
} cs_move_weigh_result;

/*
 * The second half of a move, at each new keeper: makes its letter of the sub-letters that it was sent, one of
 * each of the old_t+1 old keepers. All new keepers are told the same but for keeper, which is their own
 * number, and all weigh sub-letters of the same old keepers. Where the old letters are of one cut, the new
 * ones are just what cs_cut writes of the same secret, with some random words.
 *
 * One lying old keeper spoils a move, and the new letters do not show it: they are good, and join to another
 * secret. Join the old letters and the new ones, and compare what they give, before the old ones go. Then let
 * them go: old letters stay as good as they were.
 *
 * It is judged in this order: 1, 2, 3, 4, the 9..13 of the first sub-letter that has one, 16 of the first that
 * is of another new order, key, length, stamp or keeper, 19. 4 is also for another count of old keepers
 * than old_t+1.
 *
 * Lent: the numbers of the old keepers, in any order; their sub-letters, 2048 bytes each, end to end in any
 * order; the slot, 2048 bytes.
 * Writes: the letter to all of the slot where the number is 0, else nothing.
 */
cs_move_weigh_result cs_move_weigh(uint32_t old_t, uint32_t old_f, uint32_t old_n,
                                   uint32_t t, uint32_t f, uint32_t n,
                                   uint32_t key, uint32_t length, uint32_t stamp,
                                   const uint32_t *keepers, size_t keepers_count, uint32_t keeper,
                                   const uint8_t *letters, size_t letters_length,
                                   uint8_t *slot, size_t slot_length);

#ifdef __cplusplus
}
#endif

#endif
