/* What the example of the station list in include/feltcomet.h leaves to its caller: one FIB, with the services 4001 and 4002 hex, which come
 * from sub-channels of 72 units at 0 (EEP 3-A) and of 96 at 100 (UEP 3). compare/build puts this behind the example's text, builds both and runs them. */
#include <string.h>

static const uint8_t given[32] = {0x08, 0x01, 0x14, 0x64, 0x23, 0x04, 0x00, 0x88, 0x48, 0x0b, 0x02, 0x40, 0x01, 0x01, 0x3f, 0x06,
                                  0x40, 0x02, 0x01, 0x00, 0x16, 0xff, 0x00, 0x00, 0x00, 0x00, 0x00, 0x00, 0x00, 0x00, 0x82, 0xa6};
static unsigned asked;

size_t next_fibs(uint8_t *fibs) {
    memcpy(fibs, given, sizeof given);
    return asked++ % 4 < 3 ? sizeof given : 0;
}

static int8_t ring[1024 * 96];
static uint64_t state[11];

static bool tuned(uint64_t sid, const uint64_t *description) {
    return tune(sid, ring, sizeof ring, state) == 0 && memcmp(state + 5, description, 6 * sizeof *description) == 0;
}

int main(void) {
    const uint64_t eep[6] = {0, 72, 96, 2, 0, 1}, uep[6] = {100, 96, 128, 3, 0, 0};
    return tuned(0x4001, eep) && tuned(0x4002, uep) && tune(0x4003, ring, sizeof ring, state) == ABSENT ? 0 : 1;
}
