/*
 * Calls the library for the tests, which may run on another kind of machine than it does. The other
 * end, with the form of a request and a reply, is peer.rs.
 */
#include "csalgodes.h"

/* Declared here, since where the kit's compiler builds this no header of the C library is at hand. */
long read(int file, void *bytes, size_t count);
long write(int file, const void *bytes, size_t count);

/* Of crates/inner: functions that other crates can call, and that the library does not have. */
uint32_t inner_cut_words(uint32_t t, uint32_t f, uint32_t n, const uint16_t *constants, size_t count,
                         const uint16_t *random, size_t random_count, uint16_t *rows, size_t room);
uint16_t inner_share_word(uint16_t constant, const uint16_t *coefficients, size_t count, uint16_t x);
uint32_t inner_drawn(uint16_t draw);

enum { NUMBERS = 10, PARTS = 3, RESULTS = 9, GUARD = 64, GUARD_BYTE = 0xa5, LARGEST = 1 << 18 };

static struct {
    uint32_t call;
    uint32_t null;
    uint32_t number[NUMBERS];
    uint32_t size[PARTS];
} request;

static uint32_t result[RESULTS];

/* Each part lies between two guards. */
static _Alignas(GUARD) uint8_t memory[PARTS][GUARD + LARGEST + GUARD];

/* Whether all of it came, or went: a pipe may take several turns. */
static int take(void *to, size_t count) {
    uint8_t *at = to;
    while (count > 0) {
        long some = read(0, at, count);
        if (some <= 0) return 0;
        at += some;
        count -= (size_t)some;
    }
    return 1;
}

static int give(const void *from, size_t count) {
    const uint8_t *at = from;
    while (count > 0) {
        long some = write(1, at, count);
        if (some <= 0) return 0;
        at += some;
        count -= (size_t)some;
    }
    return 1;
}

static void guard(uint8_t *bytes) {
    for (size_t i = 0; i < GUARD; i++) bytes[i] = GUARD_BYTE;
}

static void answer_read(const uint8_t *slot, size_t size) {
    cs_read_result r = cs_read(slot, size);
    result[0] = r.number;
    result[1] = r.place;
    result[2] = r.t;
    result[3] = r.f;
    result[4] = r.n;
    result[5] = r.key;
    result[6] = r.keeper;
    result[7] = r.stamp;
    result[8] = r.length;
}

static void answer_join(const uint32_t *number, const uint8_t *tray, size_t size, uint8_t *room,
                        size_t room_size) {
    cs_join_result r = cs_join(number[0], number[1], number[2], number[3], number[4], number[5],
                               tray, size, room, room_size);
    result[0] = r.number;
    result[1] = r.usable;
    result[2] = r.need;
    result[3] = r.set;
    result[4] = r.trials;
}

static void answer_store(const uint32_t *number, uint8_t *held, size_t held_size,
                         const uint8_t *letter, size_t size) {
    cs_store_result r = cs_store(number[0], number[1], number[2], number[3], number[4], held,
                                 held_size, letter, size);
    result[0] = r.number;
    result[1] = r.place;
}

static void answer_pick(const uint32_t *number, const uint8_t *tray, size_t size) {
    cs_pick_result r = cs_pick(number[0], number[1], number[2], number[3], tray, size);
    result[0] = r.number;
    result[1] = r.stamp;
    result[2] = r.length;
}

static void answer_compare(const uint32_t *number, const uint8_t *first, const uint8_t *second,
                           cs_difference *list, const uint32_t *size) {
    cs_compare_result r = cs_compare(number[0], number[1], number[2], first, size[0], second,
                                     size[1], list, size[2] / sizeof *list);
    result[0] = r.number;
    result[1] = r.count;
}

static void answer_move_cut(const uint32_t *number, const uint8_t *letter, const uint16_t *random,
                            uint8_t *tray, const uint32_t *size) {
    cs_move_cut_result r = cs_move_cut(number[0], number[1], number[2], number[3], number[4],
                                       number[5], number[6], number[7], number[8], number[9],
                                       letter, size[0], random, size[1] / 2, tray, size[2]);
    result[0] = r.number;
    result[1] = r.place;
}

static void answer_move_weigh(const uint32_t *number, const uint32_t *keepers,
                              const uint8_t *letters, uint8_t *slot, const uint32_t *size) {
    cs_move_weigh_result r = cs_move_weigh(number[0], number[1], number[2], number[3], number[4],
                                           number[5], number[6], number[7], number[8], keepers,
                                           size[0] / 4, number[9], letters, size[1], slot, size[2]);
    result[0] = r.number;
    result[1] = r.letter;
    result[2] = r.place;
}

/* An empty part is NULL where the tests ask for that. */
static uint8_t *part(int k) {
    return request.null && request.size[k] == 0 ? NULL : memory[k] + GUARD;
}

/* Whether there is such a call. */
static int answer(void) {
    uint8_t *first = part(0), *second = part(1), *third = part(2);
    const uint32_t *number = request.number, *size = request.size;
    switch (request.call) {
    case 0: answer_read(first, size[0]); return 1;
    case 1:
        result[0] = cs_cut(number[0], number[1], number[2], number[3], number[4], first, size[0],
                           (const uint16_t *)second, size[1] / 2, third, size[2]);
        return 1;
    case 2: answer_join(number, first, size[0], second, size[1]); return 1;
    case 3: answer_store(number, first, size[0], second, size[1]); return 1;
    case 4:
        result[0] = cs_fetch(number[0], number[1], number[2], number[3], number[4], first,
                             size[0]);
        return 1;
    case 5: answer_pick(number, first, size[0]); return 1;
    case 6: answer_compare(number, first, second, (cs_difference *)third, size); return 1;
    case 7:
        result[0] = inner_cut_words(number[0], number[1], number[2], (const uint16_t *)first,
                                    size[0] / 2, (const uint16_t *)second, size[1] / 2,
                                    (uint16_t *)third, size[2] / 2);
        return 1;
    case 8:
        result[0] = inner_share_word((uint16_t)number[0], (const uint16_t *)first, size[0] / 2,
                                     (uint16_t)number[1]);
        return 1;
    case 9: result[0] = inner_drawn((uint16_t)number[0]); return 1;
    case 10: answer_move_cut(number, first, (const uint16_t *)second, third, size); return 1;
    case 11: answer_move_weigh(number, (const uint32_t *)first, second, third, size); return 1;
    default: return 0;
    }
}

int main(void) {
    while (take(&request, sizeof request)) {
        for (int k = 0; k < RESULTS; k++) result[k] = 0;
        for (int k = 0; k < PARTS; k++) {
            size_t size = request.size[k];
            if (size > LARGEST) return 1;
            guard(memory[k]);
            guard(memory[k] + GUARD + size);
            if (!take(memory[k] + GUARD, size)) return 1;
        }
        if (!answer()) return 1;
        if (!give(result, sizeof result)) return 1;
        for (int k = 0; k < PARTS; k++) {
            if (!give(memory[k], GUARD + request.size[k] + GUARD)) return 1;
        }
    }
    return 0;
}
