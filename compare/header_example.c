/* What the example in include/feltcomet.h leaves to its caller: twenty CIFs of zeros, and the frames counted. compare/build puts this behind
 * the example's text, builds both and runs them. */
static unsigned fed, played;

bool next_symbol(int8_t *soft) {
    for (int i = 0; i < 3072; i++)
        soft[i] = 0;
    return fed++ < 20 * 18;
}

void play(const uint8_t *bytes, uint64_t count, double quality) {
    if (bytes == frame && count == 3 * RATE && quality == 0.0)
        played++;
}

/* The first sixteen CIFs give no frame. */
int main(void) { return receive() == 0 && played == 4 ? 0 : 1; }
