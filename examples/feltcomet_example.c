/* Receives one sub-channel of a recording and writes its frames.
 *
 *     feltcomet_example START SIZE BITRATE LEVEL OPTION IS_EEP < RECORDING > FRAMES
 *
 * START and SIZE are in units of 64 values; LEVEL and OPTION count from 0 for EEP (3-A is level 2, option 0), LEVEL from 1 for UEP.
 * A recording is soft values, one signed byte each: transmission frames of 75 symbols of 3,072 values, 3 of FIC and then 72 of MSC.
 * What is refused is told on standard error by its number. */
#include "feltcomet.h"

#include <stdio.h>
#include <stdlib.h>

enum { SYMBOL = 3072, FIC_SYMBOLS = 3, FRAME_SYMBOLS = 75 };

/* Memory for the widest sub-channel there is: 864 units, 1,824 kbit/s. Firmware for one sub-channel needs its own SIZE and RATE only. */
enum { SIZE = 864, RATE = 1824, STEPS = 24 * RATE + 6 };

static uint64_t state[11];
static int8_t cif[18 * SYMBOL], ring[1024 * SIZE], deinterleaved[64 * SIZE], depunctured[96 * RATE + 24];
static uint64_t words[STEPS];
static uint8_t bits[STEPS], frame[3 * RATE];
static uint64_t length[1];
static double percent[1];

static const char *meaning(uint8_t number) {
    static const char *const text[] = {
        "done",
        "EEP option above 1",
        "EEP level above 3",
        "bit rate too low for this level",
        "no UEP profile for this rate and level",
        "the size is not what the protection needs",
        "EEP bit rate no multiple of 8 (option 0) or 32 (option 1)",
        "start plus size above 864",
        "a buffer is too short",
        "a symbol under 3,072 values",
        "the state is none that set-up leaves",
        "more values than are taken",
    };
    return number < sizeof text / sizeof text[0] ? text[number] : "no such number";
}

static void tell(const char *call, uint8_t number) {
    fprintf(stderr, "%s: refused with %u, %s\n", call, (unsigned)number, meaning(number));
}

/* One symbol to the receiver. All its memory goes with every call, state and stores as the last call left them. */
static uint8_t feed(const int8_t *soft, size_t n) {
    return feltcomet_feed_symbol(state, sizeof state / sizeof state[0], soft, n, cif, sizeof cif, ring, sizeof ring,
                                 deinterleaved, sizeof deinterleaved, depunctured, sizeof depunctured, words, STEPS, bits,
                                 STEPS, frame, sizeof frame, length, 1, percent, 1);
}

/* A frame that reached nobody is a failure of the whole. */
static int unwritten(void) {
    perror("the frames are not written");
    return 1;
}

int main(int argc, char **argv) {
    if (argc != 7) {
        fprintf(stderr, "usage: %s START SIZE BITRATE LEVEL OPTION IS_EEP < RECORDING > FRAMES\n", argv[0]);
        return 2;
    }
    static const unsigned long most[6] = {UINT16_MAX, UINT16_MAX, UINT16_MAX, UINT8_MAX, UINT8_MAX, 1};
    unsigned long d[6];
    for (int i = 0; i < 6; i++) {
        d[i] = strtoul(argv[i + 1], NULL, 10);
        if (d[i] > most[i]) {
            fprintf(stderr, "%s: at most %lu\n", argv[i + 1], most[i]);
            return 2;
        }
    }

    /* A bad call: one unit past the end of the CIF. It changes nothing, and set-up can be called again. */
    uint8_t number = feltcomet_set_up(861, 4, 8, 3, 0, 1, ring, sizeof ring, state, sizeof state / sizeof state[0]);
    tell("set-up of 4 units at 861", number);

    number = feltcomet_set_up((uint16_t)d[0], (uint16_t)d[1], (uint16_t)d[2], (uint8_t)d[3], (uint8_t)d[4], (uint32_t)d[5], ring,
                              sizeof ring, state, sizeof state / sizeof state[0]);
    if (number != 0) {
        tell("set-up", number);
        return 1;
    }

    static int8_t symbol[SYMBOL];
    unsigned long symbols = 0, frames = 0;
    for (;;) {
        size_t n = fread(symbol, 1, SYMBOL, stdin);
        if (n == 0)
            break;
        if (symbols++ % FRAME_SYMBOLS < FIC_SYMBOLS)
            continue; /* feltcomet_process_fic takes these, three at a time */
        number = feed(symbol, n);
        if (number != 0) {
            /* The recording ends within a symbol: refused with 9, and the state is as it was. */
            tell("feed", number);
            break;
        }
        if (length[0] == 0)
            continue; /* waiting: within a CIF, or one of the first sixteen */
        if (fwrite(frame, 1, (size_t)length[0], stdout) != length[0])
            return unwritten();
        frames++;
    }
    if (ferror(stdin)) {
        perror("the recording is not read");
        return 1;
    }
    /* The last of them may still be kept back; only this tells whether they can be written. */
    if (fflush(stdout) != 0)
        return unwritten();
    fprintf(stderr, "%lu symbols, %lu frames", symbols, frames);
    if (frames > 0)
        fprintf(stderr, ", the last of %.1f %%", percent[0]);
    fprintf(stderr, "\n");
    return 0;
}
