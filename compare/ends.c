/* How many frames each of the library's two decoders loses in Gaussian noise: one permits every end of the path, as feed_symbol decodes EEP, the
 * other the end in state 0 only, where the six zero bits of the tail lead.
 *
 *     ends SEED FRAMES LEVEL
 *
 * Frames of random bytes, EEP 3-A at 64 kbit/s: dispersed, encoded, punctured; a soft value is LEVEL x (1 or -1, and noise), rounded, and held
 * within -127 to 127. Both decoders get the same values. A frame is lost where any bit of its 192 bytes differs from what was sent. */
#include "feltcomet.h"

#include <inttypes.h>
#include <math.h>
#include <stdio.h>
#include <stdlib.h>
#include <string.h>

enum { SIZE = 48, RATE = 64, LEVEL_3 = 2, OPTION_A = 0, BITS = 24 * RATE, STEPS = BITS + 6, VALUES = 4 * STEPS };

static uint64_t seed;

/* SplitMix64 */
static uint64_t next(void) {
    uint64_t z = seed += 0x9e3779b97f4a7c15;
    z = (z ^ z >> 30) * 0xbf58476d1ce4e5b9;
    z = (z ^ z >> 27) * 0x94d049bb133111eb;
    return z ^ z >> 31;
}

/* Gaussian, by Box and Muller. */
static double gaussian(void) {
    double u = ((next() >> 11) + 1) * 0x1p-53, v = (next() >> 11) * 0x1p-53;
    return sqrt(-2 * log(u)) * cos(2 * 3.14159265358979323846 * v);
}

static void need(uint8_t refusal, const char *what) {
    if (refusal == 0)
        return;
    fprintf(stderr, "ends: %s is refused with %d\n", what, refusal);
    exit(1);
}

/* The mother code of clause 11.1.1 over a frame's bits and six zeros. */
static void encode(const uint8_t *bits, uint8_t *word) {
    for (int i = 0; i < STEPS; i++) {
        int a[7];
        for (int k = 0; k < 7; k++)
            a[k] = i - k >= 0 && i - k < BITS ? bits[i - k] : 0;
        word[4 * i] = a[0] ^ a[2] ^ a[3] ^ a[5] ^ a[6];
        word[4 * i + 1] = a[0] ^ a[1] ^ a[2] ^ a[3] ^ a[6];
        word[4 * i + 2] = a[0] ^ a[1] ^ a[4] ^ a[6];
        word[4 * i + 3] = word[4 * i];
    }
}

int main(int argc, char **argv) {
    static int8_t sent[64 * SIZE], kept[VALUES], soft[VALUES];
    static uint8_t bits[BITS], word[VALUES], decoded[STEPS];
    static uint64_t words[STEPS];
    const double noises[] = {0.55, 0.60, 0.65};
    if (argc != 4)
        return 2;
    const long frames = atol(argv[2]);
    const double level = atof(argv[3]);
    int32_t metric;

    /* Which places are sent: those that depuncturing ones does not leave at 0. */
    memset(sent, 1, sizeof sent);
    need(feltcomet_depuncture_msc(sent, sizeof sent, 0, SIZE, RATE, LEVEL_3, OPTION_A, 1, kept, VALUES), "the description");

    printf("EEP 3-A, 64 kbit/s, %ld frames each, level %g, seed %s\nnoise  lost, any end  lost, end in state 0  clipped\n", frames, level, argv[1]);
    for (size_t n = 0; n < sizeof noises / sizeof *noises; n++) {
        long lost[2] = {0, 0}, clipped = 0;
        seed = strtoull(argv[1], NULL, 10) * 1000003 + n;
        for (long f = 0; f < frames; f++) {
            for (int i = 0; i < BITS; i++)
                bits[i] = next() >> 63;
            feltcomet_energy_dispersal(bits, BITS);
            encode(bits, word);
            for (int i = 0; i < VALUES; i++) {
                double v = kept[i] ? round(level * ((word[i] ? 1 : -1) + noises[n] * gaussian())) : 0;
                clipped += fabs(v) > 127;
                soft[i] = v > 127 ? 127 : v < -127 ? -127 : v;
            }
            need(feltcomet_viterbi_decode_with_metric(soft, VALUES, words, STEPS, decoded, STEPS, &metric, 1), "a frame");
            lost[0] += memcmp(decoded, bits, BITS) != 0;
            need(feltcomet_viterbi_decode_state0(soft, VALUES, words, STEPS, decoded, STEPS, &metric, 1), "a frame");
            lost[1] += memcmp(decoded, bits, BITS) != 0;
        }
        printf("%.2f   %-13ld  %-20ld  %ld of %ld\n", noises[n], lost[0], lost[1], clipped, frames * 64 * SIZE);
    }
    return 0;
}
