/* Calls every function of include/feltcomet.h with lent memory that ends where its length says, for memcheck to watch.
 *
 *     damage SEED ROUNDS RECORDING
 *     damage SEED BYTES                writes so many random bytes, as input for the program `fic`
 *
 * RECORDING is soft values of the FIC, 9,216 a frame, so that there are FIBs to write. Every buffer is a block of its own, so that memcheck
 * sees one byte too far. A call is made with all memory filled first, and what it must leave alone is held against a copy: after a refusal,
 * everything. An accepted call is then made again with all that it has no business to read left uninitialised: it must write the same, and
 * memcheck tells of a decision that hangs on the rest. The status is 0 only where all of this held. */
#include "feltcomet.h"

#include <inttypes.h>
#include <stdio.h>
#include <stdlib.h>
#include <string.h>

enum { SYMBOL = 3072, CIF = 18 * SYMBOL, FIC_BLOCK = 2304, FIC_FRAME = 3 * SYMBOL, UNITS = 864, MOST_STEPS = 65536 };

enum { MOST_BUFFERS = 11, STATE = 11, PLACES = 64, FIB = 32 };

enum {
    ENERGY_DISPERSAL, FIB_CRC_VALID, CHECK_CRC_BITS, JUDGE, PROFILE, NEEDED_SIZE, DEPUNCTURED_SIZE, DEPUNCTURE_MSC, DEPUNCTURE_FIC,
    DECODE_STATE0, DECODE_WITH_METRIC, PROCESS_FIC, DIRECTORY_EMPTY, DIRECTORY_READ, DIRECTORY_SUB_CHANNEL, DIRECTORY_SERVICE,
    DIRECTORY_AUDIO, SET_UP, RESET, FEED_SYMBOL, FUNCTIONS
};

/* The buffers that each is lent, and how often a round calls it before each of them is short in turn. */
static const struct {
    const char *name;
    int buffers, times;
} functions[FUNCTIONS] = {
    [ENERGY_DISPERSAL] = {"energy_dispersal", 1, 20},
    [FIB_CRC_VALID] = {"fib_crc_valid", 1, 30},
    [CHECK_CRC_BITS] = {"check_crc_bits", 1, 30},
    [JUDGE] = {"judge", 0, 60},
    [PROFILE] = {"profile", 1, 30},
    [NEEDED_SIZE] = {"needed_size", 1, 30},
    [DEPUNCTURED_SIZE] = {"depunctured_size", 1, 30},
    [DEPUNCTURE_MSC] = {"depuncture_msc", 2, 30},
    [DEPUNCTURE_FIC] = {"depuncture_fic", 2, 20},
    [DECODE_STATE0] = {"viterbi_decode_state0", 4, 15},
    [DECODE_WITH_METRIC] = {"viterbi_decode_with_metric", 4, 15},
    [PROCESS_FIC] = {"process_fic", 10, 12},
    [DIRECTORY_EMPTY] = {"directory_empty", 2, 12},
    [DIRECTORY_READ] = {"directory_read", 4, 40},
    [DIRECTORY_SUB_CHANNEL] = {"directory_sub_channel", 2, 30},
    [DIRECTORY_SERVICE] = {"directory_service", 2, 30},
    [DIRECTORY_AUDIO] = {"directory_audio", 2, 30},
    [SET_UP] = {"set_up", 2, 30},
    [RESET] = {"reset", 2, 30},
    [FEED_SYMBOL] = {"feed_symbol", MOST_BUFFERS, 30},
};

static unsigned long accepted[FUNCTIONS], refused[FUNCTIONS];

typedef struct {
    uint16_t start, size, rate;
    uint8_t level, option;
    uint32_t eep;
} Description;

#define DESCRIBED(d) (d).start, (d).size, (d).rate, (d).level, (d).option, (d).eep

/* A buffer is only read, read and written, or only written. */
enum { READ, KEPT, WRITTEN };

typedef struct {
    int use;
    size_t place;        /* bytes of a place */
    size_t need;         /* places that an accepted call may look at or write */
    size_t length;       /* places lent */
    uint8_t *holds;      /* what stands in them before the call */
    uint8_t *block, *at; /* the memory, and where in it the places begin */
} Lent;

/* Buffers by their place in a call. */
enum { FIC_FIBS = 6, FIC_COUNTS };
enum { FEED_STATE, FEED_SOFT, FEED_CIF, FEED_RING, FEED_DEINTERLEAVED, FEED_LENGTH = 9, FEED_PERCENT };

/* What the answer must be; ANY where it is not foretold. The two tests' no counts as a refusal. */
enum { NO = 255, ANY = 256 };

/* No buffer is to be short. */
enum { NONE = -1 };

typedef struct {
    int function, buffers, expected;
    Description d;
    uint64_t state[STATE];
    size_t place; /* of a directory */
    Lent lent[MOST_BUFFERS];
} Call;

static const char *seed_told;
static unsigned long round_told, frames_out, fibs_out;
static uint8_t *recording, good_fib[32];
static size_t recorded;

static void failed(const Call *c, const char *why, unsigned long number) {
    printf("%s: FAILED with seed %s in round %lu: %s %lu\n", functions[c->function].name, seed_told, round_told, why, number);
    printf("start %u, size %u, bit rate %u, level %u, option %u, EEP %" PRIu32 "; places:", c->d.start, c->d.size, c->d.rate, c->d.level,
           c->d.option, c->d.eep);
    for (int i = 0; i < c->buffers; i++)
        printf(" %zu", c->lent[i].length);
    printf("\n");
    exit(1);
}

static void *memory(size_t bytes) {
    void *p = malloc(bytes);
    if (p == NULL) {
        fprintf(stderr, "damage: no memory\n");
        exit(2);
    }
    return p;
}

/* SplitMix64, as the comparison has it. */
static uint64_t random_state;

static uint64_t any(void) {
    random_state += 0x9E3779B97F4A7C15;
    uint64_t z = (random_state ^ (random_state >> 30)) * 0xBF58476D1CE4E5B9;
    z = (z ^ (z >> 27)) * 0x94D049BB133111EB;
    return z ^ (z >> 31);
}

static size_t below(size_t n) { return (size_t)((any() >> 32) * n >> 32); }

static bool one_in(size_t n) { return below(n) == 0; }

/* A length near n: none, one less, n itself, some more, fewer. */
static size_t around(size_t n) {
    switch (below(6)) {
    case 0: return 0;
    case 1: return n > 0 ? n - 1 : 0;
    case 2: return n + 1 + below(40);
    case 3: return below(n + 1);
    default: return n;
    }
}

static void fill(uint8_t *bytes, size_t n) {
    for (size_t i = 0; i < n; i += 8) {
        uint64_t x = any();
        memcpy(bytes + i, &x, n - i < 8 ? n - i : 8);
    }
}

/* Soft values: as a rule any, else one extreme, both, or erasures only. */
static void fill_soft(uint8_t *soft, size_t n) {
    size_t kind = below(8);
    if (kind > 3)
        fill(soft, n);
    else if (kind == 3)
        for (size_t i = 0; i < n; i++)
            soft[i] = one_in(2) ? 0x80 : 0x7F;
    else
        memset(soft, kind == 0 ? 0x80 : kind == 1 ? 0x7F : 0, n);
}

static uint8_t judge(const Description *d) { return feltcomet_judge(DESCRIBED(*d)); }

/* How many values a description sends, 0 where it has no row. */
static size_t values_of(const Description *d) {
    uint64_t values = 0;
    feltcomet_needed_size(DESCRIBED(*d), &values, 1);
    return (size_t)values;
}

/* A description, mostly of a small sub-channel, and mostly taken where it is not spoiled. */
static Description describe(bool spoiled) {
    static const uint16_t rates[] = {32, 48, 56, 64, 80, 96, 112, 128, 160, 192, 224, 256, 320, 384};
    static const uint32_t yes[] = {1, 2, 0x100, 0x10000, 0x80000000, 0xFFFFFFFF};
    Description d = {0, 0, 0, 0, 0, 0};
    bool wide = one_in(40);
    if (one_in(3)) {
        d.rate = rates[below(wide ? 14 : 2)];
        d.level = (uint8_t)(1 + below(5));
        d.option = (uint8_t)any();
    } else {
        d.eep = yes[below(6)];
        d.option = (uint8_t)below(2);
        d.level = (uint8_t)below(4);
        d.rate = (uint16_t)(d.option == 0 ? 8 * (1 + below(wide ? 144 : 4)) : 32 * (1 + below(wide ? 57 : 2)));
    }
    d.size = (uint16_t)((values_of(&d) + 63) / 64);
    d.start = (uint16_t)below(d.size < UNITS ? UNITS + 1 - d.size : UNITS);
    if (!spoiled)
        return d;
    switch (below(7)) {
    case 0: d.option = (uint8_t)any(); break;
    case 1: d.level = (uint8_t)any(); break;
    case 2: d.rate = (uint16_t)(d.rate + 1 + below(7)); break;
    case 3: d.size = (uint16_t)(d.size + (one_in(2) ? 1 : -1)); break;
    case 4: d.start = (uint16_t)(UNITS + 1 - d.size + below(3)); break;
    case 5: d.eep = d.eep == 0; break;
    default: fill((uint8_t *)&d, sizeof d); break;
    }
    return d;
}

/* A small one that set-up takes. */
static Description small_one(void) {
    Description d;
    do
        d = describe(false);
    while (judge(&d) != 0 || d.rate > 64);
    return d;
}

static Description in_state(const uint64_t *s) {
    return (Description){(uint16_t)s[5], (uint16_t)s[6], (uint16_t)s[7], (uint8_t)s[8], (uint8_t)s[9], s[10] != 0};
}

static bool bad_state(const uint64_t *s) {
    Description d = in_state(s);
    return s[0] > 17 || s[1] > 3 || s[2] > 15 || s[3] > 17 || s[5] > 65535 || s[6] > 65535 || s[7] > 65535 || s[8] > 255 || s[9] > 255 ||
           judge(&d) != 0;
}

/* A number that no state has there, or any other. */
static void spoil_state(uint64_t *s) {
    static const uint64_t limit[STATE] = {17, 3, 15, 17, UINT64_MAX, 864, 864, 1824, 5, 1, 1};
    size_t i = below(STATE);
    switch (below(6)) {
    case 0: s[i] = limit[i] + 1; break;
    case 1: s[i] += (uint64_t)1 << (one_in(2) ? 32 : 16); break; /* the same number, were it cut off */
    case 2: s[i] += 256; break;
    case 3: s[i] = UINT64_MAX; break;
    case 4: s[i] = below(300); break;
    default: s[i] = any(); break;
    }
}

static void draw_state(uint64_t *s, const Description *d, bool spoiled) {
    static const size_t most[4] = {17, 3, 15, 17};
    for (int i = 0; i < 4; i++)
        s[i] = one_in(2) ? most[i] : below(most[i] + 1);
    s[4] = one_in(3) ? UINT64_MAX : any();
    s[5] = d->start, s[6] = d->size, s[7] = d->rate, s[8] = d->level, s[9] = d->option, s[10] = d->eep;
    if (spoiled)
        spoil_state(s);
}

static Lent *add(Call *c, int use, size_t place, size_t need) {
    Lent *l = &c->lent[c->buffers++];
    *l = (Lent){use, place, need, need, NULL, NULL, NULL};
    return l;
}

/* Values to read, of which the first `need` at most count. */
static void add_read(Call *c, size_t length, size_t need) { add(c, READ, 1, length < need ? length : need)->length = length; }

/* The buffers of a call with their needs. A description that is refused asks for no megabytes. */
static void draw_buffers(Call *c, bool turned_away) {
    const Description *d = &c->d;
    size_t size = d->size, rate = d->rate;
    if (turned_away)
        size = size < 4 ? size : 4, rate = rate < 8 ? rate : 8;
    switch (c->function) {
    case ENERGY_DISPERSAL: add(c, KEPT, 1, around(below(one_in(9) ? 44000 : 800))); break;
    case FIB_CRC_VALID: add_read(c, around(32), 32); break;
    case CHECK_CRC_BITS: add_read(c, around(256), 256); break;
    case JUDGE: break;
    case PROFILE: add(c, WRITTEN, 8, 8); break;
    case NEEDED_SIZE:
    case DEPUNCTURED_SIZE: add(c, WRITTEN, 8, 1); break;
    case DEPUNCTURE_MSC: {
        size_t values = turned_away ? 64 * size : values_of(d);
        add_read(c, around(values), values);
        add(c, WRITTEN, 1, 96 * rate + 24);
        break;
    }
    case DEPUNCTURE_FIC:
        add_read(c, around(FIC_BLOCK), FIC_BLOCK);
        add(c, WRITTEN, 1, 3096);
        break;
    case DECODE_STATE0:
    case DECODE_WITH_METRIC: {
        /* The first calls have the most steps there may be, then one too many. */
        unsigned long calls = (accepted[c->function] + refused[c->function]) % 300;
        size_t steps = calls < 2 ? MOST_STEPS : calls < 4 ? MOST_STEPS + 1 : one_in(20) ? 774 : below(120);
        add_read(c, 4 * steps + below(4), 4 * steps);
        if (steps > MOST_STEPS)
            steps = 10;
        add(c, WRITTEN, 8, steps);
        add(c, WRITTEN, 1, steps);
        add(c, WRITTEN, 4, 1);
        break;
    }
    case PROCESS_FIC: {
        size_t lengths[3], sum = 0;
        bool whole = one_in(2);
        for (int i = 0; i < 3; i++)
            sum += lengths[i] = whole ? SYMBOL : one_in(12) ? SYMBOL + 1 + below(9) : one_in(3) ? below(SYMBOL + 1) : SYMBOL - below(3);
        size_t blocks = sum / FIC_BLOCK, left = FIC_BLOCK * blocks;
        for (int i = 0; i < 3; i++) {
            add_read(c, lengths[i], left);
            left -= c->lent[i].need;
        }
        add(c, WRITTEN, 1, 3096);
        add(c, WRITTEN, 8, 774);
        add(c, WRITTEN, 1, 774);
        add(c, WRITTEN, 1, 96 * blocks);
        add(c, WRITTEN, 8, 5);
        add(c, WRITTEN, 4, 8);
        add(c, WRITTEN, 8, 4);
        break;
    }
    case DIRECTORY_EMPTY:
        add(c, WRITTEN, 8, PLACES);
        add(c, WRITTEN, 8, 4 * PLACES);
        break;
    case DIRECTORY_READ: {
        size_t bytes = around(FIB * below(5));
        add_read(c, bytes, bytes / FIB * FIB);
        add(c, KEPT, 8, PLACES);
        add(c, KEPT, 8, 4 * PLACES);
        add(c, WRITTEN, 8, 5);
        break;
    }
    case DIRECTORY_SUB_CHANNEL:
        add(c, READ, 8, PLACES);
        add(c, WRITTEN, 8, 7);
        break;
    case DIRECTORY_SERVICE:
    case DIRECTORY_AUDIO:
        add(c, READ, 8, 4 * PLACES);
        add(c, WRITTEN, 8, c->function == DIRECTORY_SERVICE ? 16 : 2);
        break;
    case SET_UP:
        add(c, WRITTEN, 1, 1024 * size);
        add(c, WRITTEN, 8, STATE);
        break;
    case RESET:
        add(c, KEPT, 8, STATE);
        add(c, WRITTEN, 1, 1024 * size);
        break;
    case FEED_SYMBOL:
        add(c, KEPT, 8, STATE);
        add_read(c, one_in(8) ? around(SYMBOL) : SYMBOL, SYMBOL);
        add(c, KEPT, 1, CIF);
        add(c, KEPT, 1, 1024 * size);
        add(c, WRITTEN, 1, 64 * size);
        add(c, WRITTEN, 1, 96 * rate + 24);
        add(c, WRITTEN, 8, 24 * rate + 6);
        add(c, WRITTEN, 1, 24 * rate + 6);
        add(c, WRITTEN, 1, 3 * rate);
        add(c, WRITTEN, 8, 1);
        add(c, WRITTEN, 8, 1);
        break;
    }
}

/* Whether a buffer has a need that it can fall short of. */
static bool can_be_short(const Call *c, int i) {
    bool numbers = c->lent[i].place > 1; /* a directory that is only read */
    return (c->lent[i].use != READ || numbers) && c->function != ENERGY_DISPERSAL;
}

/* The needed lengths to the place, now and then some more, and less in the buffer that is to be short; or near the need in all of them. */
static void draw_lengths(Call *c, int scant) {
    bool surplus = one_in(3), loose = scant == NONE && one_in(10);
    for (int i = 0; i < c->buffers; i++) {
        Lent *l = &c->lent[i];
        if (!can_be_short(c, i))
            continue;
        if (i == scant)
            l->length = l->need == 0 ? 0 : one_in(2) ? l->need - 1 : one_in(2) ? 0 : below(l->need);
        else if (loose)
            l->length = around(l->need);
        else if (surplus)
            l->length = l->need + below(20);
    }
}

/* A FIB that passes, as far as the buffer reaches, or one with a place changed. */
static void put_fib(Call *c) {
    Lent *l = &c->lent[0];
    bool bytes = c->function == FIB_CRC_VALID, fits = bytes ? l->length >= 32 : l->length == 256;
    for (size_t i = 0; i < l->need; i++)
        l->holds[i] = bytes ? good_fib[i] : good_fib[i / 8] >> (7 - i % 8) & 1;
    if (l->need > 0 && one_in(2)) {
        l->holds[below(l->need)] ^= (uint8_t)(1 + below(bytes ? 255 : 3));
        fits = false;
    }
    c->expected = fits ? 0 : NO;
}

/* A frame of the recording through the three symbols, so that its blocks stay whole; now and then a stretch of it lost. */
static void put_recording(Call *c) {
    const uint8_t *from = recording + FIC_FRAME * below(recorded / FIC_FRAME);
    for (size_t i = 0, done = 0; i < 3; i++) {
        Lent *l = &c->lent[i];
        size_t n = l->length < FIC_FRAME - done ? l->length : FIC_FRAME - done;
        memcpy(l->holds, from + done, n);
        if (one_in(4))
            fill_soft(l->holds, below(n + 1));
        done += n;
    }
}

/* FIBs with FIGs of sub-channels and services, and noise behind them; in some the noise passes the end. */
static void put_figs(Call *c) {
    Lent *l = &c->lent[0];
    fill(l->holds, l->length);
    for (size_t at = 0; at + FIB <= l->length; at += FIB) {
        size_t length = 2 + below(27), behind = length + 1;
        l->holds[at] = (uint8_t)length;
        l->holds[at + 1] = (uint8_t)(one_in(3) ? 1 : one_in(2) ? 2 : 0x22);
        if (one_in(2))
            l->holds[at + behind] = 0xFF;
    }
}

/* What the lent memory holds before the call. */
static void draw_contents(Call *c) {
    for (int i = 0; i < c->buffers; i++) {
        Lent *l = &c->lent[i];
        l->holds = memory(l->length * l->place);
        if (l->use == WRITTEN || l->place > 1)
            fill(l->holds, l->length * l->place);
        else
            fill_soft(l->holds, l->length);
    }
    if (c->function == FIB_CRC_VALID || c->function == CHECK_CRC_BITS) {
        if (one_in(2))
            put_fib(c);
    } else if (c->function == PROCESS_FIC) {
        if (!one_in(4))
            put_recording(c);
    } else if (c->function == DIRECTORY_READ) {
        if (!one_in(4))
            put_figs(c);
    } else if (c->function == RESET || c->function == FEED_SYMBOL) {
        Lent *l = &c->lent[0];
        memcpy(l->holds, c->state, 8 * (l->length < STATE ? l->length : STATE));
    }
}

/* The answer that include/feltcomet.h gives, taking the judgement of the description as it is. */
static int answer_of(const Call *c) {
    const Lent *l = c->lent;
    int judged = judge(&c->d), scant = 0;
    for (int i = 0; i < c->buffers; i++)
        if (can_be_short(c, i) && l[i].length < l[i].need)
            scant = 8;
    switch (c->function) {
    case ENERGY_DISPERSAL: return 0;
    case PROFILE:
    case NEEDED_SIZE:
    case DEPUNCTURED_SIZE: return judged >= 1 && judged <= 4 ? judged : scant;
    case DEPUNCTURE_MSC:
    case SET_UP: return judged != 0 ? judged : scant;
    case DEPUNCTURE_FIC: return scant;
    case DECODE_STATE0:
    case DECODE_WITH_METRIC: return l[0].length / 4 > MOST_STEPS ? 11 : scant;
    case PROCESS_FIC: return l[0].length > SYMBOL || l[1].length > SYMBOL || l[2].length > SYMBOL ? 11 : scant;
    case DIRECTORY_EMPTY: return scant != 0 ? 12 : 0;
    case DIRECTORY_READ: return l[1].length < PLACES || l[2].length < 4 * PLACES ? 12 : scant;
    case DIRECTORY_SUB_CHANNEL: return l[0].length < PLACES ? 12 : scant;
    case DIRECTORY_SERVICE:
    case DIRECTORY_AUDIO: return l[0].length < 4 * PLACES ? 12 : scant;
    case RESET: return l[0].length < STATE ? 8 : bad_state(c->state) ? 10 : scant;
    case FEED_SYMBOL:
        if (l[FEED_STATE].length < STATE)
            return 8;
        return bad_state(c->state) ? 10 : scant != 0 ? scant : l[FEED_SOFT].length < SYMBOL ? 9 : 0;
    default: return ANY;
    }
}

/* A call of a function with a description, or with a state where there is one. */
static void draw(Call *c, int function, const Description *d, const uint64_t *state, int scant) {
    *c = (Call){.function = function, .d = *d};
    bool turned_away = judge(d) != 0;
    if (state != NULL) {
        memcpy(c->state, state, sizeof c->state);
        c->d = in_state(state);
        turned_away = bad_state(state);
    }
    c->place = one_in(6) ? (size_t)any() : around(below(PLACES));
    draw_buffers(c, turned_away);
    draw_lengths(c, scant);
    c->expected = answer_of(c);
    draw_contents(c);
}

#define LENT(type, i) (type *)c->lent[i].at, c->lent[i].length

static uint8_t call(const Call *c) {
    const Description d = c->d;
    switch (c->function) {
    case ENERGY_DISPERSAL: feltcomet_energy_dispersal(LENT(uint8_t, 0)); return 0;
    case FIB_CRC_VALID: return feltcomet_fib_crc_valid(LENT(uint8_t, 0)) ? 0 : NO;
    case CHECK_CRC_BITS: return feltcomet_check_crc_bits(LENT(uint8_t, 0)) ? 0 : NO;
    case JUDGE: return feltcomet_judge(DESCRIBED(d));
    case PROFILE: return feltcomet_profile(DESCRIBED(d), LENT(uint64_t, 0));
    case NEEDED_SIZE: return feltcomet_needed_size(DESCRIBED(d), LENT(uint64_t, 0));
    case DEPUNCTURED_SIZE: return feltcomet_depunctured_size(DESCRIBED(d), LENT(uint64_t, 0));
    case DEPUNCTURE_MSC: return feltcomet_depuncture_msc(LENT(int8_t, 0), DESCRIBED(d), LENT(int8_t, 1));
    case DEPUNCTURE_FIC: return feltcomet_depuncture_fic(LENT(int8_t, 0), LENT(int8_t, 1));
    case DECODE_STATE0:
        return feltcomet_viterbi_decode_state0(LENT(int8_t, 0), LENT(uint64_t, 1), LENT(uint8_t, 2), LENT(int32_t, 3));
    case DECODE_WITH_METRIC:
        return feltcomet_viterbi_decode_with_metric(LENT(int8_t, 0), LENT(uint64_t, 1), LENT(uint8_t, 2), LENT(int32_t, 3));
    case PROCESS_FIC:
        return feltcomet_process_fic(LENT(int8_t, 0), LENT(int8_t, 1), LENT(int8_t, 2), LENT(int8_t, 3), LENT(uint64_t, 4),
                                     LENT(uint8_t, 5), LENT(uint8_t, 6), LENT(uint64_t, 7), LENT(int32_t, 8), LENT(double, 9));
    case DIRECTORY_EMPTY: return feltcomet_directory_empty(LENT(uint64_t, 0), LENT(uint64_t, 1));
    case DIRECTORY_READ:
        return feltcomet_directory_read(LENT(uint8_t, 0), LENT(uint64_t, 1), LENT(uint64_t, 2), LENT(uint64_t, 3));
    case DIRECTORY_SUB_CHANNEL: return feltcomet_directory_sub_channel(LENT(uint64_t, 0), c->place, LENT(uint64_t, 1));
    case DIRECTORY_SERVICE: return feltcomet_directory_service(LENT(uint64_t, 0), c->place, LENT(uint64_t, 1));
    case DIRECTORY_AUDIO: return feltcomet_directory_audio(LENT(uint64_t, 0), c->place, LENT(uint64_t, 1));
    case SET_UP: return feltcomet_set_up(DESCRIBED(d), LENT(int8_t, 0), LENT(uint64_t, 1));
    case RESET: return feltcomet_reset(LENT(uint64_t, 0), LENT(int8_t, 1));
    default:
        return feltcomet_feed_symbol(LENT(uint64_t, 0), LENT(int8_t, 1), LENT(int8_t, 2), LENT(int8_t, 3), LENT(int8_t, 4),
                                     LENT(int8_t, 5), LENT(uint64_t, 6), LENT(uint8_t, 7), LENT(uint8_t, 8), LENT(uint64_t, 9),
                                     LENT(double, 10));
    }
}

/* Memory to the byte; in one block of four the places begin later, at an odd address if they are bytes. Bare: what the call has no
 * business to read is left uninitialised. */
static void lend(Call *c, bool bare) {
    for (int i = 0; i < c->buffers; i++) {
        Lent *l = &c->lent[i];
        size_t front = one_in(4) ? l->place * (1 + below(15)) : 0;
        size_t filled = !bare ? l->length : l->use == WRITTEN ? 0 : l->need;
        l->block = memory(front + l->length * l->place);
        l->at = l->block + front;
        memset(l->block, 0xA5, front);
        memcpy(l->at, l->holds, filled * l->place);
    }
}

static void give_back(const Call *c) {
    for (int i = 0; i < c->buffers; i++)
        free(c->lent[i].block);
}

/* Eight bytes at a time: memcheck makes each step dear. */
static bool same(const uint8_t *p, const uint8_t *q, size_t n) {
    uint64_t differ = 0, x, y;
    size_t i = 0;
    for (; i + 8 <= n; i += 8) {
        memcpy(&x, p + i, 8);
        memcpy(&y, q + i, 8);
        differ |= x ^ y;
    }
    for (; i < n; i++)
        differ |= p[i] ^ q[i];
    return differ == 0;
}

static uint64_t number(const Call *c, int buffer, size_t i) {
    uint64_t x;
    memcpy(&x, c->lent[buffer].at + 8 * i, 8);
    return x;
}

/* How many places from the first on an accepted call has given its answer in. */
static size_t written(const Call *c, int i) {
    const Lent *l = &c->lent[i];
    if (l->use != WRITTEN)
        return l->use == KEPT ? l->need : 0;
    if (c->function == PROCESS_FIC) {
        if (i == FIC_FIBS)
            return 32 * (size_t)number(c, FIC_COUNTS, 0);
        return i < FIC_FIBS && c->lent[FIC_FIBS].need == 0 ? 0 : l->need; /* no block, no work */
    }
    if (c->function == FEED_SYMBOL && i != FEED_LENGTH) {
        bool whole = number(c, FEED_STATE, 0) == 0, frame = number(c, FEED_LENGTH, 0) > 0;
        return (i == FEED_DEINTERLEAVED ? whole : frame) ? l->need : 0;
    }
    return l->need;
}

/* Memory before the places, and from the place `from` on, is as it was. */
static void untouched(const Call *c, int i, size_t from, uint8_t answer) {
    const Lent *l = &c->lent[i];
    size_t skip = from * l->place;
    for (const uint8_t *p = l->block; p < l->at; p++)
        if (*p != 0xA5)
            failed(c, "a place before the first is written, buffer", (unsigned long)i);
    if (from < l->length && !same(l->at + skip, l->holds + skip, l->length * l->place - skip))
        failed(c, answer != 0 ? "a refusal has changed buffer"
                              : "only to be read, or beyond the need, but written: buffer", (unsigned long)i);
}

static void count(const Call *c, uint8_t answer) { (answer == 0 ? accepted : refused)[c->function]++; }

/* The call, twice where it is accepted. The memory is the last one's until it is given back. */
static uint8_t make(Call *c) {
    lend(c, false);
    uint8_t answer = call(c);
    count(c, answer);
    if (c->expected != ANY && answer != c->expected)
        failed(c, "another answer was expected than", answer);
    for (int i = 0; i < c->buffers; i++)
        untouched(c, i, answer == 0 && c->lent[i].use != READ ? c->lent[i].need : 0, answer);
    if (answer != 0)
        return answer;
    Call first = *c;
    lend(c, true);
    uint8_t again = call(c);
    count(c, again);
    if (again != 0)
        failed(c, "accepted, and then with other memory refused with", again);
    for (int i = 0; i < c->buffers; i++)
        if (!same(first.lent[i].at, c->lent[i].at, written(c, i) * c->lent[i].place))
            failed(c, "what it writes hangs on what memory held, buffer", (unsigned long)i);
    give_back(&first);
    return 0;
}

static void done(Call *c) {
    give_back(c);
    for (int i = 0; i < c->buffers; i++)
        free(c->lent[i].holds);
}

/* One call of a function with whatever input. */
static void one(int function, int scant) {
    Call c;
    uint64_t state[STATE];
    bool stateful = function == RESET || function == FEED_SYMBOL;
    Description d = describe(scant == NONE && one_in(stateful ? 8 : 2));
    draw_state(state, &d, scant == NONE && one_in(4));
    draw(&c, function, &d, stateful ? state : NULL, scant);
    uint8_t answer = make(&c);
    if (answer == 0 && function == PROCESS_FIC)
        fibs_out += number(&c, FIC_COUNTS, 0);
    if (answer == 0 && function == FEED_SYMBOL)
        frames_out += number(&c, FEED_LENGTH, 0) > 0;
    done(&c);
}

/* A state of eighteen symbols, or a sound one, and no place for the answer: 10, or else 8. */
static void no_places(void) {
    Call c;
    uint64_t state[STATE];
    Description d = small_one();
    draw_state(state, &d, false);
    if (one_in(2))
        state[0] = 18;
    draw(&c, FEED_SYMBOL, &d, state, NONE);
    c.lent[FEED_LENGTH].length = c.lent[FEED_PERCENT].length = 0;
    c.expected = answer_of(&c);
    make(&c);
    done(&c);
}

/* What a receiver hands on from call to call. */
typedef struct {
    Description d;
    uint64_t state[STATE];
    uint8_t *cif, *ring;
} Receiver;

static void keep(Receiver *r, const Call *c, int state, int ring) {
    memcpy(r->state, c->lent[state].at, sizeof r->state);
    memcpy(r->ring, c->lent[ring].at, 1024 * (size_t)r->d.size);
}

/* Set-up or reset, with other lengths where one was drawn too short. */
static void until_accepted(const Receiver *r, Call *c, int function, const uint64_t *state) {
    for (;;) {
        draw(c, function, &r->d, state, NONE);
        if (make(c) == 0)
            return;
        done(c);
    }
}

/* One symbol, and before it now and then a call that is refused; gives the length of the frame. */
static uint64_t feed(Receiver *r) {
    uint64_t length = 0;
    for (bool taken = false; !taken;) {
        Call c;
        uint64_t state[STATE];
        memcpy(state, r->state, sizeof state);
        if (one_in(12))
            spoil_state(state);
        draw(&c, FEED_SYMBOL, &r->d, state, one_in(12) ? (int)below(MOST_BUFFERS) : NONE);
        size_t cif = c.lent[FEED_CIF].length, ring = c.lent[FEED_RING].length, whole = 1024 * (size_t)r->d.size;
        memcpy(c.lent[FEED_CIF].holds, r->cif, cif < CIF ? cif : CIF);
        memcpy(c.lent[FEED_RING].holds, r->ring, ring < whole ? ring : whole);
        /* Another state may be a good one too. */
        taken = make(&c) == 0 && memcmp(state, r->state, sizeof state) == 0;
        if (taken) {
            length = number(&c, FEED_LENGTH, 0);
            keep(r, &c, FEED_STATE, FEED_RING);
            memcpy(r->cif, c.lent[FEED_CIF].at, CIF);
        }
        done(&c);
    }
    return length;
}

/* A sub-channel from set-up on: from the seventeenth CIF on each gives a frame, and after a reset again none. */
static void receive(void) {
    Call c;
    Receiver r = {.d = small_one()};
    r.cif = memory(CIF);
    r.ring = memory(1024 * (size_t)r.d.size);
    fill_soft(r.cif, CIF);
    until_accepted(&r, &c, SET_UP, NULL);
    keep(&r, &c, 1, 0);
    done(&c);
    size_t cifs = 17 + below(3), more = one_in(4) ? 1 + below(30) : 0;
    for (size_t symbol = 1; symbol <= 18 * cifs + more; symbol++) {
        uint64_t expected = symbol % 18 == 0 && symbol >= 18 * 17 ? 3 * r.d.rate : 0, length = feed(&r);
        if (length != expected)
            failed(&c, "a frame of another length than expected at symbol", symbol);
        frames_out += length > 0;
    }
    until_accepted(&r, &c, RESET, r.state);
    keep(&r, &c, 0, 1);
    done(&c);
    for (int symbol = 0; symbol < 18; symbol++)
        if (feed(&r) != 0)
            failed(&c, "a frame after reset at symbol", (unsigned long)symbol);
    free(r.cif);
    free(r.ring);
}

static bool read_recording(const char *name) {
    FILE *file = fopen(name, "rb");
    if (file == NULL)
        return false;
    recording = memory(14 * FIC_FRAME);
    recorded = fread(recording, 1, 14 * FIC_FRAME, file);
    fclose(file);
    return recorded >= FIC_FRAME;
}

/* The first FIB of the recording, for the two tests. */
static bool find_fib(void) {
    static int8_t depunctured[3096];
    static uint64_t words[774], counts[5];
    static uint8_t bits[774], fibs[384];
    int32_t metrics[8];
    double percents[4];
    const int8_t *soft = (const int8_t *)recording;
    uint8_t answer = feltcomet_process_fic(soft, SYMBOL, soft + SYMBOL, SYMBOL, soft + 2 * SYMBOL, SYMBOL, depunctured, 3096, words, 774,
                                           bits, 774, fibs, 384, counts, 5, metrics, 8, percents, 4);
    memcpy(good_fib, fibs, sizeof good_fib);
    return answer == 0 && counts[0] > 0;
}

int main(int argc, char **argv) {
    if (argc != 3 && argc != 4) {
        fprintf(stderr, "usage: %s SEED ROUNDS RECORDING | %s SEED BYTES\n", argv[0], argv[0]);
        return 2;
    }
    seed_told = argv[1];
    /* Mixed once, else a seed's numbers are the next one's a step later. */
    random_state = strtoull(argv[1], NULL, 10);
    random_state = any();
    unsigned long rounds = strtoul(argv[2], NULL, 10);
    if (argc == 3) {
        uint8_t *bytes = memory(rounds);
        fill(bytes, rounds);
        return fwrite(bytes, 1, rounds, stdout) == rounds && fflush(stdout) == 0 ? 0 : 1;
    }
    if (!read_recording(argv[3]) || !find_fib()) {
        printf("%s: no recording with a FIB in its first frame\n", argv[3]);
        return 1;
    }
    for (round_told = 1; round_told <= rounds; round_told++) {
        for (int f = 0; f < FUNCTIONS; f++) {
            for (int i = 0; i < functions[f].times; i++)
                one(f, NONE);
            for (int i = 0; i < functions[f].buffers; i++)
                one(f, i);
        }
        no_places();
        no_places();
        receive();
    }
    int idle = 0;
    for (int f = 0; f < FUNCTIONS; f++) {
        printf("%s: %lu calls, %lu accepted, %lu refused\n", functions[f].name, accepted[f] + refused[f], accepted[f], refused[f]);
        /* A function that never did the one or the other has not been tried; dispersal refuses nothing. */
        idle += accepted[f] == 0 || (refused[f] == 0 && f != ENERGY_DISPERSAL);
    }
    printf("%lu frames and %lu FIBs came out\n", frames_out, fibs_out);
    if (idle > 0 || frames_out == 0 || fibs_out == 0) {
        printf("damage: too little was tried; more rounds, please\n");
        return 1;
    }
    free(recording);
    return 0;
}
