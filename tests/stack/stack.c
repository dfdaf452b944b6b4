/*
 * Measures the stack that each call of the library takes. A call is given painted memory for its
 * stack, and the lowest byte that is no longer paint tells how deep it went; the frame of the small
 * function here that makes the call is counted too. Each is measured as the first call of a process,
 * in which the loader may still have to look up memcpy and memset, and as a later one.
 */
#include "csalgodes.h"

/* Declared here, since where the kit's compiler builds this no header of the C library is at hand. */
int printf(const char *format, ...);
int snprintf(char *to, size_t size, const char *format, ...);
int fflush(void *stream);
int fork(void);
int waitpid(int child, int *status, int options);
_Noreturn void _exit(int status);
void *mmap(void *at, size_t size, int protection, int flags, int file, long offset);
int mprotect(void *at, size_t size, int protection);

enum { SLOT = 2048, N = 16, TRAY = N * SLOT, MOST_T = 7, LONGEST = 952 };
enum { KEY = 255, KEEPER = 1, STAMP = 2, MOVED_STAMP = 3, TRIES = 100 };

/* The header's limit, and room to see by how much a call passes it. */
enum { LIMIT = 64 * 1024, GROUND = 4 * LIMIT };

/* Of x86-64 Linux. */
enum { NO_ACCESS = 0, READ_AND_WRITE = 3, SHARED_AND_OF_NO_FILE = 0x21 };
#define NO_MEMORY ((void *)-1)

/*
 * A call and what it is lent, which comes of two cuts with n=16 and 952 bytes, the most there can be. Where
 * there are more groups, each has two cuts of its own: of g groups, keeper x is in number (x-1) mod g, and
 * the stamps of number k are by k greater than those of number 0. A set of keepers has keeper x as bit x-1.
 * A move is from an order to the same order.
 */
typedef struct {
    const char *call, *input;
    uint32_t (*run)(void);
    uint32_t t, f;
    uint32_t age;    /* by so much is the other cut's stamp the smaller */
    uint32_t same;   /* so many words are the same in both cuts */
    uint32_t absent; /* keepers whose slots hold nothing */
    uint32_t others; /* keepers whose slots hold the other cut's letters */
    uint32_t more;   /* so many groups are there beside number 0 */
    uint32_t places; /* so many has the list that a comparison is lent */
    uint32_t number; /* the answer that is to be given */
} measurement;

/* Bytes deep, 0 where the call was not made or crashed. */
typedef struct {
    uint32_t number;
    size_t first, later;
} outcome;

static measurement now;

/* What one process leaves for the next. A call that goes past the ground crashes at the guard. */
static struct {
    uint8_t guard[LIMIT], ground[GROUND];
    uint8_t tray[TRAY], cut[TRAY], other[TRAY], secret[LONGEST], room[LONGEST];
    uint8_t sub_letters[(MOST_T + 1) * SLOT];
    uint32_t old_keepers[MOST_T + 1];
    uint16_t random[MOST_T * LONGEST];
    cs_difference list[CS_MOST_DIFFERENCES];
    uint8_t paint;
    uint32_t number;
} *common;

static uint32_t draw(uint32_t below) {
    static uint64_t state = 1;
    state = state * 6364136223846793005u + 1442695040888963407u;
    return (uint32_t)(state >> 33) % below;
}

static uint32_t cut(uint8_t *tray, uint32_t stamp) {
    return cs_cut(now.t, now.f, N, KEY, stamp, common->secret, LONGEST, common->random,
                  now.t * LONGEST, tray, TRAY);
}

static uint32_t run_cut(void) { return cut(common->tray, STAMP); }

static uint32_t run_read(void) { return cs_read(common->tray, SLOT).number; }

static uint32_t run_store(void) {
    return cs_store(now.t, now.f, N, KEY, KEEPER, common->other, SLOT, common->tray, SLOT).number;
}

static uint32_t run_fetch(void) {
    return cs_fetch(now.t, now.f, N, KEY, KEEPER, common->tray, SLOT);
}

static uint32_t run_pick(void) { return cs_pick(now.t, now.f, N, KEY, common->tray, TRAY).number; }

static uint32_t run_join(void) {
    cs_join_result r = cs_join(now.t, now.f, N, KEY, STAMP, LONGEST, common->tray, TRAY,
                               common->room, LONGEST);
    return r.number;
}

static uint32_t run_compare(void) {
    cs_compare_result r = cs_compare(now.t, now.f, N, common->tray, TRAY, common->other, TRAY,
                                     common->list, now.places);
    return r.number;
}

static uint32_t move_cut(uint32_t keeper, uint8_t *tray) {
    cs_move_cut_result r = cs_move_cut(now.t, now.f, N, now.t, now.f, N, KEY, LONGEST, MOVED_STAMP,
                                       keeper, common->tray + (keeper - 1) * SLOT, SLOT,
                                       common->random, now.t * LONGEST, tray, TRAY);
    return r.number;
}

static uint32_t run_move_cut(void) { return move_cut(KEEPER, common->other); }

static uint32_t run_move_weigh(void) {
    size_t count = now.t + 1;
    cs_move_weigh_result r = cs_move_weigh(now.t, now.f, N, now.t, now.f, N, KEY, LONGEST,
                                           MOVED_STAMP, common->old_keepers, count, KEEPER,
                                           common->sub_letters, count * SLOT, common->other, SLOT);
    return r.number;
}

/* The library's code is for x86-64 wherever it runs, so this can be. */
static void run(void) {
    uint32_t number;
    __asm__ volatile("movq %%rsp, %%rbx\n\t"
                     "movq %[top], %%rsp\n\t"
                     "callq *%[call]\n\t"
                     "movq %%rbx, %%rsp"
                     : "=&a"(number)
                     : [top] "r"(common->ground + GROUND), [call] "r"(now.run)
                     : "rbx", "rcx", "rdx", "rsi", "rdi", "r8", "r9", "r10", "r11", "xmm0", "xmm1",
                       "xmm2", "xmm3", "xmm4", "xmm5", "xmm6", "xmm7", "xmm8", "xmm9", "xmm10",
                       "xmm11", "xmm12", "xmm13", "xmm14", "xmm15", "cc", "memory");
    common->number = number;
}

static void draw_random(uint32_t from) {
    for (uint32_t i = from; i < now.t * LONGEST; i++) common->random[i] = (uint16_t)draw(257);
}

static void lay_slot(uint32_t k) {
    const uint8_t *from = now.others >> k & 1 ? common->other : common->cut;
    for (size_t i = k * SLOT; i < (k + 1) * SLOT; i++) {
        common->tray[i] = now.absent >> k & 1 ? 0 : from[i];
    }
}

static void lay_group(uint32_t g) {
    draw_random(0);
    if (cut(common->cut, STAMP + g) != 0) _exit(1);
    draw_random(now.t * now.same);
    if (cut(common->other, STAMP + g - now.age) != 0) _exit(1);
    for (uint32_t k = g; k < N; k += now.more + 1) lay_slot(k);
}

/* The last keepers are the old ones, and cut in turn. */
static void lay_sub_letters(void) {
    for (uint32_t k = 0; k <= now.t; k++) {
        common->old_keepers[k] = N - k;
        if (move_cut(N - k, common->cut) != 0) _exit(1);
        for (size_t i = 0; i < SLOT; i++) common->sub_letters[k * SLOT + i] = common->cut[i];
    }
}

static void lay(void) {
    for (uint32_t g = 0; g <= now.more; g++) lay_group(g);
    if (now.run == run_move_weigh) lay_sub_letters();
    for (size_t i = 0; i < GROUND; i++) common->ground[i] = common->paint;
}

static void lay_and_run(void) {
    lay();
    run();
}

/* Whether a process of its own did it, and neither gave up nor crashed. */
static int done_apart(void (*task)(void)) {
    int status, child = fork();
    if (child == 0) {
        task();
        _exit(0);
    }
    return child > 0 && waitpid(child, &status, 0) == child && status == 0;
}

static size_t touched(void) {
    size_t left = 0;
    while (left < GROUND && common->ground[left] == common->paint) left++;
    return GROUND - left;
}

static outcome measure_under(uint8_t paint) {
    outcome o = {0, 0, 0};
    common->paint = paint;
    if (done_apart(lay) && done_apart(run)) o.first = touched();
    if (done_apart(lay_and_run)) o.later = touched();
    o.number = common->number;
    return o;
}

static size_t larger(size_t one, size_t other) { return one > other ? one : other; }

/* A byte that the call sets to the one paint shows under the other. */
static outcome measure(const measurement *m) {
    now = *m;
    outcome one = measure_under(0xa5), other = measure_under(0x5a);
    if (!one.first || !one.later || !other.first || !other.later) return (outcome){0, 0, 0};
    return (outcome){one.number, larger(one.first, other.first), larger(one.later, other.later)};
}

static int within_limit(outcome o) { return o.first > 0 && larger(o.first, o.later) < LIMIT; }

/* Whether all is as it should be. */
static int tell(const measurement *m, outcome o) {
    printf("%-10s  %-58s  %6zu  %6zu\n", m->call, m->input, o.first, o.later);
    if (o.first == 0) printf("^ could not be made, or crashed\n");
    else if (!within_limit(o)) printf("^ takes %d bytes or more\n", LIMIT);
    else if (o.number != m->number) printf("^ answered %u and not %u\n", o.number, m->number);
    else return 1;
    return 0;
}

static const measurement chosen[] = {
    {"read", "a letter of four blocks", run_read, .t = 7, .f = 2},
    {"cut", "t=7 f=2", run_cut, .t = 7, .f = 2},
    {"store", "a newer letter", run_store, .t = 7, .f = 2, .age = 1},
    {"store", "the same stamp, another word", run_store, .t = 7, .f = 2, .same = 951, .number = 15},
    {"fetch", "a letter of four blocks", run_fetch, .t = 7, .f = 2},
    {"pick", "t=7 f=2, one group", run_pick, .t = 7, .f = 2},
    {"pick", "t=7 f=2, one group, 3 lie", run_pick, .t = 7, .f = 2, .others = 0x0049, .number = 7},
    {"pick", "t=3 f=2, two groups, 3 lie in the newer", run_pick, .t = 3, .f = 2, .more = 1,
     .others = 0x002a},
    {"pick", "t=1 f=1, five groups, none joins", run_pick, .t = 1, .f = 1, .more = 4,
     .others = 0x003f, .number = 7},
    {"pick", "t=1 f=0, eight groups, none joins", run_pick, .t = 1, .more = 7, .others = 0x00ff,
     .number = 8},
    {"compare", "equal trays", run_compare, .t = 7, .f = 2, .others = 0xffff},
    {"compare", "two cuts", run_compare, .t = 7, .f = 2, .places = CS_MOST_DIFFERENCES},
    {"compare", "two cuts, too short a list", run_compare, .t = 7, .f = 2, .places = 1, .number = 18},
    {"join", "t=7 f=2, nobody lies", run_join, .t = 7, .f = 2},
    {"join", "t=3 f=3, 3 lie in the last word", run_join, .t = 3, .f = 3, .same = 951, .others = 7},
    {"join", "t=7 f=2, 3 lie", run_join, .t = 7, .f = 2, .others = 0x0049, .number = 7},
    {"join", "t=3 f=3, 4 lie", run_join, .t = 3, .f = 3, .others = 0x000f, .number = 7},
    {"move_cut", "t=7 f=2", run_move_cut, .t = 7, .f = 2},
    {"move_weigh", "t=7 f=2, eight sub-letters", run_move_weigh, .t = 7, .f = 2},
};

/* The search goes over all keepers, and goes far where the first are absent. */
static measurement drawn(const char *call, uint32_t (*run)(void)) {
    measurement m = {call, "", run, .t = 1 + draw(MOST_T)};
    uint32_t most_f = (N - 1 - m.t) / 4;
    m.f = draw((m.t < most_f ? m.t : most_f) + 1);
    m.absent = (1u << draw(N - m.t - m.f)) - 1;
    m.others = draw(1u << N) & draw(1u << N) & ~m.absent;
    return m;
}

static uint32_t size_of(uint32_t set) {
    uint32_t size = 0;
    for (; set != 0; set &= set - 1) size++;
    return size;
}

static int tell_drawn(measurement m, outcome o) {
    char input[100];
    snprintf(input, sizeof input, "t=%u f=%u, the first %u absent, %u lie; deepest of %d drawn",
             m.t, m.f, size_of(m.absent), size_of(m.others), TRIES);
    m.input = input;
    m.number = o.number; /* any will do */
    return tell(&m, o);
}

/* Only the deepest is told, or the first that is not as it should be. */
static int measure_drawn(const char *call, uint32_t (*run)(void)) {
    measurement deepest = drawn(call, run);
    outcome most = measure(&deepest);
    for (int i = 1; i < TRIES && within_limit(most); i++) {
        measurement m = drawn(call, run);
        outcome o = measure(&m);
        if (!within_limit(o) || o.later > most.later) deepest = m, most = o;
    }
    return tell_drawn(deepest, most);
}

static int measure_chosen(void) {
    int good = 1;
    for (size_t i = 0; i < sizeof chosen / sizeof *chosen; i++) {
        good &= tell(&chosen[i], measure(&chosen[i]));
    }
    return good;
}

int main(void) {
    common = mmap(NULL, sizeof *common, READ_AND_WRITE, SHARED_AND_OF_NO_FILE, -1, 0);
    if (common == NO_MEMORY || mprotect(common->guard, LIMIT, NO_ACCESS) != 0) {
        printf("there is no memory to measure in\n");
        return 1;
    }
    printf("bytes of stack, in the first call of a process and in a later one; the limit is %d\n",
           LIMIT);
    int good = measure_chosen() & measure_drawn("join", run_join) & measure_drawn("pick", run_pick);
    return fflush(NULL) == 0 && good ? 0 : 1;
}
