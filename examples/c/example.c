/*
 * Csalgodes from C: cuts a secret for seven keepers, loses one letter, takes another from a liar, sees by
 * comparing which slots changed, picks what to join, and joins it. For a key of another number the same
 * letters give nothing. Then there is one liar too many, then too many letters are lost, and the pick refuses.
 * At last the letters as they were cut are moved to eight new keepers, who get the same secret.
 *
 *     gcc -I target/library examples/c/example.c target/library/libcsalgodes.a -o example
 */
#include <stdio.h>
#include <string.h>
#include <sys/random.h>

#include "csalgodes.h"

enum { T = 2, F = 1, N = 7, STAMP = 1, LENGTH = 32, WORDS = LENGTH * T, SLOT = 2048, TRAY = N * SLOT };
/* By these numbers letters of one secret are told from letters of another. */
enum { KEY = 3, OTHER_KEY = 4 };
/* Where the key moves to, and how many old keepers cut for that, which are these. */
enum { NEW_T = 3, NEW_F = 1, NEW_N = 8, NEW_STAMP = 2, NEW_WORDS = LENGTH * NEW_T, NEW_TRAY = NEW_N * SLOT };
enum { OLD_KEEPERS = T + 1 };
static const uint32_t old_keepers[OLD_KEEPERS] = {2, 4, 6};

static uint8_t *slot(uint8_t *tray, int keeper) {
    return tray + (keeper - 1) * SLOT;
}

static int random_bytes(void *bytes, size_t count) {
    if (getentropy(bytes, count) == 0) return 1;
    fprintf(stderr, "the operating system gives no random bytes\n");
    return 0;
}

/* 65535 is 255 times 257. Below it each remainder is as likely as any other; it is drawn again. */
static int random_words(uint16_t *words, size_t count) {
    for (size_t i = 0; i < count; i++) {
        uint16_t draw;
        do {
            if (!random_bytes(&draw, sizeof draw)) return 0;
        } while (draw == 65535);
        words[i] = draw % 257;
    }
    return 1;
}

/* Cuts a new secret, with words of its own: random words are used once. */
static int cut_new(uint8_t *secret, uint8_t *tray) {
    uint16_t words[WORDS];
    if (!random_bytes(secret, LENGTH) || !random_words(words, WORDS)) return 0;
    uint32_t number = cs_cut(T, F, N, KEY, STAMP, secret, LENGTH, words, WORDS, tray, TRAY);
    if (number != 0) fprintf(stderr, "cut: number %u\n", number);
    return number == 0;
}

/* Says in which slots two trays differ. No two trays of this order differ in more words than the list has. */
static int compare_and_say(const uint8_t *before, const uint8_t *after) {
    static cs_difference list[TRAY / 2];
    cs_compare_result found = cs_compare(T, F, N, before, TRAY, after, TRAY, list, TRAY / 2);
    if (found.number != 0) {
        fprintf(stderr, "compare: number %u\n", found.number);
        return 0;
    }
    printf("compare: slots that changed:");
    for (uint32_t i = 0; i < found.count; i++) {
        /* in rising order, so those of a slot stand together */
        if (i == 0 || list[i].slot != list[i - 1].slot) printf(" %u", list[i].slot);
    }
    printf("\n");
    return 1;
}

/* Picks what to join, and says what that is. Whether there is something. */
static int pick_and_say(const uint8_t *tray, cs_pick_result *picked) {
    *picked = cs_pick(T, F, N, KEY, tray, TRAY);
    printf("pick: number %u, stamp %u, length %u\n", picked->number, picked->stamp, picked->length);
    switch (picked->number) {
    case 0: return 1;
    case 6: printf("refused: too few letters, more keepers must answer\n"); return 0;
    case 7:
    case 8:
        printf("refused: there are enough letters of stamp %u, but they do not join\n", picked->stamp);
        return 0;
    default: printf("refused: csalgodes.h says why\n"); return 0;
    }
}

/* Joins letters that have this key's number, and says what was found. */
static cs_join_result join_for(uint32_t key, uint32_t stamp, uint32_t length, const uint8_t *tray,
                               uint8_t *room) {
    cs_join_result found = cs_join(T, F, N, key, stamp, length, tray, TRAY, room, length);
    printf("join for key %u: number %u, usable %u, need %u, trials %u\n", key, found.number, found.usable,
           found.need, found.trials);
    return found;
}

/*
 * Joins what the pick names. The length of the secret written, 0 for none. Where newer letters are lost, it is
 * an older secret: whoever knows the newest stamp compares it with the one picked.
 */
static uint32_t join_and_say(const uint8_t *tray, uint8_t *room) {
    cs_pick_result picked;
    if (!pick_and_say(tray, &picked)) return 0;
    cs_join_result found = join_for(KEY, picked.stamp, picked.length, tray, room);
    if (found.number != 0) return 0;
    printf("agree:");
    for (int keeper = 1; keeper <= N; keeper++) {
        if (found.set >> (keeper - 1) & 1) printf(" %d", keeper);
    }
    printf("\n");
    return picked.length;
}

/* An old keeper cuts its letter again, with words of its own: a sub-letter for each new keeper. */
static int cut_again(uint32_t keeper, const uint8_t *letter, uint8_t *tray) {
    uint16_t words[NEW_WORDS];
    if (!random_words(words, NEW_WORDS)) return 0;
    cs_move_cut_result cut = cs_move_cut(T, F, N, NEW_T, NEW_F, NEW_N, KEY, LENGTH, NEW_STAMP, keeper,
                                         letter, SLOT, words, NEW_WORDS, tray, NEW_TRAY);
    if (cut.number != 0) fprintf(stderr, "keeper %u cuts: number %u\n", keeper, cut.number);
    return cut.number == 0;
}

/* A new keeper weighs its sub-letters, one of each old keeper, into its letter. */
static int weigh(uint32_t keeper, uint8_t trays[OLD_KEEPERS][NEW_TRAY], uint8_t *letter) {
    uint8_t sub_letters[OLD_KEEPERS * SLOT];
    for (int i = 0; i < OLD_KEEPERS; i++) memcpy(sub_letters + i * SLOT, slot(trays[i], keeper), SLOT);
    cs_move_weigh_result weighed =
        cs_move_weigh(T, F, N, NEW_T, NEW_F, NEW_N, KEY, LENGTH, NEW_STAMP, old_keepers, OLD_KEEPERS, keeper,
                      sub_letters, sizeof sub_letters, letter, SLOT);
    if (weighed.number != 0) fprintf(stderr, "keeper %u weighs: number %u\n", keeper, weighed.number);
    return weighed.number == 0;
}

/* Moves the key. Each sub-letter goes from one keeper to one other, and nobody has the key meanwhile. */
static int move_key(uint8_t *tray, uint8_t *new_tray) {
    static uint8_t trays[OLD_KEEPERS][NEW_TRAY];
    printf("move: for %d new keepers cut:", NEW_N);
    for (int i = 0; i < OLD_KEEPERS; i++) {
        if (!cut_again(old_keepers[i], slot(tray, old_keepers[i]), trays[i])) return 0;
        printf(" %u", old_keepers[i]);
    }
    printf("\n");
    for (int keeper = 1; keeper <= NEW_N; keeper++) {
        if (!weigh(keeper, trays, slot(new_tray, keeper))) return 0;
    }
    return 1;
}

/* Whether the new letters give the secret. A lie of one old keeper shows here alone. */
static int is_moved(const uint8_t *new_tray, const uint8_t *secret) {
    uint8_t room[LENGTH];
    cs_join_result found =
        cs_join(NEW_T, NEW_F, NEW_N, KEY, NEW_STAMP, LENGTH, new_tray, NEW_TRAY, room, LENGTH);
    printf("join of the new letters: number %u, usable %u, need %u, trials %u\n", found.number, found.usable,
           found.need, found.trials);
    return found.number == 0 && memcmp(room, secret, LENGTH) == 0;
}

int main(void) {
    static uint8_t tray[TRAY], other_tray[TRAY], as_cut[TRAY], new_tray[NEW_TRAY];
    uint8_t secret[LENGTH], other_secret[LENGTH], room[CS_LONGEST_SECRET];
    if (!cut_new(secret, tray) || !cut_new(other_secret, other_tray)) return 1;
    printf("cut: %d bytes into %d letters\n", LENGTH, N);
    memcpy(as_cut, tray, TRAY);

    /* Keeper 3 lies with a letter of another cut, which every check takes for good. */
    memcpy(slot(tray, 3), slot(other_tray, 3), SLOT);
    memset(slot(tray, 5), 0, SLOT);
    if (!compare_and_say(as_cut, tray)) return 1;
    if (join_and_say(tray, room) != LENGTH || memcmp(room, secret, LENGTH) != 0) {
        fprintf(stderr, "the secret did not come back\n");
        return 1;
    }
    printf("the secret came back\n");

    /* Told another key's number, the join has no letter to use, and leaves the room as it is. */
    if (join_for(OTHER_KEY, STAMP, LENGTH, tray, room).number != 6) {
        fprintf(stderr, "the join for key %d did not give 6\n", OTHER_KEY);
        return 1;
    }

    /* Keeper 4 lies too, one more than the order allows for. */
    memcpy(slot(tray, 4), slot(other_tray, 4), SLOT);
    if (join_and_say(tray, room) != 0) {
        fprintf(stderr, "letters of two secrets were joined\n");
        return 1;
    }

    static const int silent[] = {1, 2, 4};
    for (int i = 0; i < 3; i++) memset(slot(tray, silent[i]), 0, SLOT);
    if (join_and_say(tray, room) != 0) {
        fprintf(stderr, "three letters were joined\n");
        return 1;
    }

    /* The old letters stay until the new ones are seen to give the same secret. */
    if (!move_key(as_cut, new_tray) || !is_moved(new_tray, secret)) {
        fprintf(stderr, "the secret was not moved\n");
        return 1;
    }
    printf("the new letters give the same secret\n");
    return 0;
}
