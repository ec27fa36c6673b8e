/* feltcomet: a proved DAB channel decoder (ETSI EN 300 401, mode I), for C and, by the same declarations, for Rust.
 *
 * Link crates/feltcomet/out/libfeltcomet.a, which `rt lib` in crates/feltcomet proves and writes. It needs memcpy and memset, and no other
 * function.
 *
 * Every function takes every input, judges it itself and returns. A slice is a pointer and then a length in elements, named after it; a
 * length of 0 may go with any pointer that is not null. The caller's buffers must not overlap each other: the proofs are of a language in
 * which they cannot.
 *
 * A function that can turn the caller away returns 0 where it is done and else the number of the first refusal below that holds, in the
 * order that stands with the function. After a refusal all buffers are as they were. A buffer beyond what is needed is never touched.
 *
 *    1  EEP option above 1
 *    2  EEP level above 3
 *    3  L1 negative: the bit rate is too low for the level (8 kbit/s at 2-A too, for which EN 300 401 has a row of its own)
 *    4  no UEP profile for rate and level
 *    5  EEP: the size differs from what is needed; UEP: it is less, or over by more than 8 values
 *    6  EEP bit rate no multiple of 8 (option 0) or 32 (option 1)
 *    7  start plus size above 864 units
 *    8  a buffer shorter than needed
 *    9  a symbol under 3,072 values
 *   10  a state with symbols above 17, CIF in frame above 3, ring index above 15, count above 17, or a description refused by 1 to 7
 *   11  a FIC symbol over 3,072 values, or decoder input over 65,536 whole steps
 *   12  a directory of fewer than 64 numbers for sub-channels or 256 for services
 *
 * A soft value is positive for 1, negative for 0 and zero for an erasure; -128 is legal and has weight 128.
 *
 * A sub-channel's description is six numbers, as they follow from FIG 0/1: start and size in capacity units of 64 values, bit rate in kbit/s,
 * protection level (EEP: 0 to 3 for 1-A to 4-A and 1-B to 4-B; UEP: 1 to 5), EEP option (0 for A, 1 for B), and whether it is EEP: 0 no,
 * any other number yes. For UEP the option is not looked at. FIG 0/1 has no bit rate: its long form (EEP) gives size, option and level, and
 * the rate is 8 for each 12, 8, 6 or 4 units of 1-A to 4-A, 32 for each 27, 21, 18 or 15 units of 1-B to 4-B; its short form (UEP) gives the
 * number of a row of clause 6.2.1's table, which has size, level and rate.
 *
 * The percentage of a block or a frame is metric / sum x 100, where sum is that of the absolute depunctured values, and 0.0 where the sum is
 * 0. The metric is the best path's score less all that was subtracted from it on the way (each time it passed 100,000). So the percentage
 * can be negative, and of a strong signal without a fault it can be near 0: it is no measure of the signal's strength.
 */
#ifndef FELTCOMET_H
#define FELTCOMET_H

#include <stdbool.h>
#include <stddef.h>
#include <stdint.h>

#ifdef __cplusplus
extern "C" {
#endif

/* Energy dispersal, clause 10: xors each value with its bit of the sequence, which begins anew at each call. The same function scrambles
 * and undoes it. Any length, any values. */
void feltcomet_energy_dispersal(uint8_t *bits, size_t bits_length);

/* Whether the first 32 bytes are a FIB with a good CRC (clause 5.2.1, annex E). Under 32 bytes: no. */
bool feltcomet_fib_crc_valid(const uint8_t *fib, size_t fib_length);

/* Whether these are the 256 zeros and ones, high bits first, of a FIB with a good CRC. Any other length or value: no. */
bool feltcomet_check_crc_bits(const uint8_t *bits, size_t bits_length);

/* Whether a receiver takes the description: 0, or its first refusal of 1 to 7 (UEP: 4, 5, 7). */
uint8_t feltcomet_judge(uint16_t start_addr, uint16_t sub_size, uint16_t bitrate, uint8_t protection_level, uint8_t eep_option,
                        uint32_t is_eep);

/* The protection profile of a description, whatever its place and size: row[0] to row[3] are the blocks of its four regions, row[4] to
 * row[7] their puncturing vectors PI counted from 0, and 24 where a region is empty. Refusals 1 to 4, then 8 under eight places. */
uint8_t feltcomet_profile(uint16_t start_addr, uint16_t sub_size, uint16_t bitrate, uint8_t protection_level, uint8_t eep_option,
                          uint32_t is_eep, uint64_t *row, size_t row_length);

/* How many values the profile of a description sends, into size[0]. Refusals 1 to 4, then 8 with no place. */
uint8_t feltcomet_needed_size(uint16_t start_addr, uint16_t sub_size, uint16_t bitrate, uint8_t protection_level, uint8_t eep_option,
                              uint32_t is_eep, uint64_t *size, size_t size_length);

/* How many values they become when depunctured, into size[0]. Refusals 1 to 4, then 8 with no place. */
uint8_t feltcomet_depunctured_size(uint16_t start_addr, uint16_t sub_size, uint16_t bitrate, uint8_t protection_level, uint8_t eep_option,
                                   uint32_t is_eep, uint64_t *size, size_t size_length);

/* Depunctures a sub-channel's values into the first 96 x bitrate + 24 places of out: 0 in each place that is not sent, and where the
 * input is short; surplus input is not read. Refusals 1 to 7, then 8. */
uint8_t feltcomet_depuncture_msc(const int8_t *soft, size_t soft_length, uint16_t start_addr, uint16_t sub_size, uint16_t bitrate,
                                 uint8_t protection_level, uint8_t eep_option, uint32_t is_eep, int8_t *out, size_t out_length);

/* Depunctures a block of the FIC, 2,304 values, into the first 3,096 places of out, in the same way. Refusal 8. */
uint8_t feltcomet_depuncture_fic(const int8_t *soft, size_t soft_length, int8_t *out, size_t out_length);

/* Viterbi decoding of the mother code (clause 11.1): four soft values make a step, and one to three left over are ignored. A step takes
 * one place of words and one of bits. bits gets the decoded bits, the oldest first; bit s of words[t] is 1 where the best path of t + 1
 * steps into state s comes from the higher predecessor; metric[0] gets the best path's score less all that was subtracted, 0 where there
 * is no step. Refusal 11, then 8 where words or bits have fewer places than steps or metric has none.
 * The first permits the paths that end in state 0, the second every path. */
uint8_t feltcomet_viterbi_decode_state0(const int8_t *soft, size_t soft_length, uint64_t *words, size_t words_length, uint8_t *bits,
                                        size_t bits_length, int32_t *metric, size_t metric_length);
uint8_t feltcomet_viterbi_decode_with_metric(const int8_t *soft, size_t soft_length, uint64_t *words, size_t words_length, uint8_t *bits,
                                             size_t bits_length, int32_t *metric, size_t metric_length);

/* The FIC: three symbols of up to 3,072 soft values, joined in order and cut into blocks of 2,304, the rest dropped. Each block is
 * depunctured, decoded, dispersed afresh and cut into three FIBs; those with a good CRC are written into fibs one after another, 32 bytes
 * each. counts[0] gets how many in all and counts[1] to counts[4] how many of each of four blocks; metrics[0] to metrics[3] the metric and
 * metrics[4] to metrics[7] the sum of absolute depunctured values of each; percents[0] to percents[3] the percentage; all 0 for a block
 * that is not there. Needed, even with no whole block: 3,096 depunctured, 774 words and 774 bits; 96 fibs for each whole block; 5 counts,
 * 8 metrics, 4 percents. Refusal 11, then 8. */
uint8_t feltcomet_process_fic(const int8_t *first, size_t first_length, const int8_t *second, size_t second_length, const int8_t *third,
                              size_t third_length, int8_t *depunctured, size_t depunctured_length, uint64_t *words, size_t words_length,
                              uint8_t *bits, size_t bits_length, uint8_t *fibs, size_t fibs_length, uint64_t *counts, size_t counts_length,
                              int32_t *metrics, size_t metrics_length, double *percents, size_t percents_length);

/* A receiver's state is eleven numbers that the caller keeps and hands on untouched:
 *    state[0] symbols of the CIF being gathered, 0 to 17     state[5] start_addr
 *    state[1] CIF in frame, 0 to 3                           state[6] sub_size
 *    state[2] ring index, 0 to 15                            state[7] bitrate
 *    state[3] CIF count, held at 17                          state[8] protection_level
 *    state[4] frames decoded, held at the largest number     state[9] eep_option
 *                                                            state[10] is_eep: written as 0 or 1, read as yes where it is not 0
 * Places beyond these are never touched. A number above 65,535 in state[5] to state[7], or above 255 in another but state[4] and state[10],
 * is refusal 10, as a bad state is. */

/* A new state for a description, and the ring's need, 1,024 x sub_size values, filled with zeros. Refusals 1 to 7, then 8 where the ring is
 * short or the state has fewer than eleven numbers. */
uint8_t feltcomet_set_up(uint16_t start_addr, uint16_t sub_size, uint16_t bitrate, uint8_t protection_level, uint8_t eep_option,
                         uint32_t is_eep, int8_t *ring, size_t ring_length, uint64_t *state, size_t state_length);

/* The state of a new set-up with the same description, and the ring's need filled with zeros. Refusal 8 where the state has fewer than
 * eleven numbers, then 10, then 8 where the ring is short. */
uint8_t feltcomet_reset(uint64_t *state, size_t state_length, int8_t *ring, size_t ring_length);

/* Takes a symbol: its first 3,072 soft values go into the CIF store, and the eighteenth makes a CIF. A whole CIF goes through the ring, and
 * from the seventeenth since set-up or reset on it gives a frame. The state is written anew. length[0] gets 0 while no frame is given, and
 * else the frame's bytes, 3 x bitrate; then percent[0] gets its percentage, and else it is not touched. The CIF store and the ring are handed
 * on untouched from call to call; the other buffers hold nothing between calls. A UEP frame is decoded as feltcomet_viterbi_decode_state0
 * does, an EEP frame as feltcomet_viterbi_decode_with_metric does, with every end permitted: the zero tail that is sent goes unused there,
 * which in noise costs frames that the other decoder would give (docs/DIFFERENCES.md has a count).
 * Needed at every call: cif 55,296; ring 1,024 x sub_size; deinterleaved 64 x sub_size; depunctured 96 x bitrate + 24; words and bits
 * 24 x bitrate + 6 each; frame 3 x bitrate; length and percent 1 each. Refusal 8 where the state has fewer than eleven numbers, since no
 * state can be read of them; then 10; then 8 where another buffer is shorter than needed; then 9. */
uint8_t feltcomet_feed_symbol(uint64_t *state, size_t state_length, const int8_t *soft, size_t soft_length, int8_t *cif, size_t cif_length,
                              int8_t *ring, size_t ring_length, int8_t *deinterleaved, size_t deinterleaved_length, int8_t *depunctured,
                              size_t depunctured_length, uint64_t *words, size_t words_length, uint8_t *bits, size_t bits_length,
                              uint8_t *frame, size_t frame_length, uint64_t *length, size_t length_length, double *percent,
                              size_t percent_length);

/* The station list. A directory is numbers that the caller keeps and hands on untouched: 64 for sub-channels, one for each SubChId, and 256
 * for services, four for each of 64 places, which are taken in the order in which services first come. Any content is taken as it is; set
 * up a new one with feltcomet_directory_empty. Numbers beyond these are never touched. Refusal 12 comes first everywhere, and 8 for the
 * places of an answer after it. Nothing that a FIB holds is refused, and an absent sub-channel or service is an answer too.
 *
 * A later entry replaces an earlier one of the same sub-channel or service, but what has left the air keeps its place, and 64 services that
 * are gone would shut out a new one. So after a rearrangement, or every second or so, read into a second directory from empty, and use that
 * from then on: a second of FIBs has the whole configuration many times. */

/* Empties all places. Refusal 12. */
uint8_t feltcomet_directory_empty(uint64_t *subs, size_t subs_length, uint64_t *services, size_t services_length);

/* Reads whole FIBs, 32 bytes each, as feltcomet_process_fic writes them; their CRC is not looked at again, and an incomplete one at the end
 * is not read. Counted are FIG 0/1 and FIG 0/2 of this ensemble as it is on the air now (C/N and OE 0). A FIG whose length passes the end of
 * its FIB ends that FIB, with all entries before it counted and none of its own; the next FIB is read.
 * counts[0] gets how many FIBs were read, counts[1] how many ended so; of the first of these counts[2] gets the number, from 0, and
 * counts[3] the FIG's offset in it, and both 0 where there is none. Reading FIB by FIB gives each. counts[4] gets how many entries of
 * services found no place, each time that they came. Refusal 12, then 8 under five counts. */
uint8_t feltcomet_directory_read(const uint8_t *fibs, size_t fibs_length, uint64_t *subs, size_t subs_length, uint64_t *services,
                                 size_t services_length, uint64_t *counts, size_t counts_length);

/* What the directory has for a SubChId: description[0] gets 1, and description[1] to description[6] start_addr, sub_size, bitrate,
 * protection_level, eep_option and is_eep, as feltcomet_set_up takes them; which judges them. All seven get 0 where there is none, as for
 * an id above 63. Refusal 12 under 64 numbers, then 8 under seven places. */
uint8_t feltcomet_directory_sub_channel(const uint64_t *subs, size_t subs_length, size_t id, uint64_t *description,
                                        size_t description_length);

/* What the directory has at a service's place, 0 to 63: answer[0] gets 1, answer[1] 1 for an identifier of 32 bits and 0 for 16, answer[2] the
 * identifier (SId), answer[3] how many components, 0 to 12, and answer[4] to answer[15] their words of 16 bits as sent, 0 beyond the last.
 * All sixteen get 0 where there is none. Refusal 12 under 256 numbers, then 8 under sixteen places. */
uint8_t feltcomet_directory_service(const uint64_t *services, size_t services_length, size_t place, uint64_t *answer, size_t answer_length);

/* The sub-channel of its primary audio component, what a listener hears: answer[0] gets 1 and answer[1] the SubChId; both 0 where there is no
 * service or no such component. Refusal 12 under 256 numbers, then 8 under two places. */
uint8_t feltcomet_directory_audio(const uint64_t *services, size_t services_length, size_t place, uint64_t *answer, size_t answer_length);

/* From FIBs to a receiver, with no number typed by hand; next_fibs, the identifier and the ring are the caller's.
 *
 *     #include "feltcomet.h"
 *
 *     enum { PLACES = 64, ABSENT = 255 };
 *
 *     size_t next_fibs(uint8_t *fibs); // what feltcomet_process_fic has written of the next frame, 32 bytes a FIB; 0 after a second or so
 *
 *     uint8_t tune(uint64_t sid, int8_t *ring, size_t ring_length, uint64_t *state) {
 *         static uint64_t subs[PLACES], services[4 * PLACES];
 *         static uint8_t fibs[384];
 *         uint64_t counts[5], service[16], audio[2], d[7];
 *         uint8_t refusal = feltcomet_directory_empty(subs, PLACES, services, 4 * PLACES);
 *         for (size_t n; refusal == 0 && (n = next_fibs(fibs)) > 0;)
 *             refusal = feltcomet_directory_read(fibs, n, subs, PLACES, services, 4 * PLACES, counts, 5);
 *         for (size_t place = 0; refusal == 0 && place < PLACES; place++) {
 *             refusal = feltcomet_directory_service(services, 4 * PLACES, place, service, 16);
 *             if (refusal != 0 || service[0] == 0 || service[2] != sid)
 *                 continue;
 *             refusal = feltcomet_directory_audio(services, 4 * PLACES, place, audio, 2);
 *             if (refusal != 0 || audio[0] == 0)
 *                 continue;
 *             refusal = feltcomet_directory_sub_channel(subs, PLACES, audio[1], d, 7);
 *             if (refusal == 0 && d[0] == 1)
 *                 return feltcomet_set_up(d[1], d[2], d[3], d[4], d[5], d[6], ring, ring_length, state, 11);
 *         }
 *         return refusal != 0 ? refusal : ABSENT; // a refusal, or the service is not there or has no audio
 *     }
 */

/* A receiver, whole. The sub-channel here is 4 units at 0, 8 kbit/s, EEP 4-A; next_symbol and play are the caller's. The other entries are
 * called in the same way; examples/feltcomet_example.c is a program of this shape.
 *
 *     #include "feltcomet.h"
 *
 *     enum { SIZE = 4, RATE = 8, STEPS = 24 * RATE + 6 };
 *
 *     static uint64_t state[11], words[STEPS], length[1];
 *     static int8_t cif[55296], ring[1024 * SIZE], deinterleaved[64 * SIZE], depunctured[96 * RATE + 24];
 *     static uint8_t bits[STEPS], frame[3 * RATE];
 *     static double percent[1];
 *
 *     bool next_symbol(int8_t *soft); // 3,072 values of the MSC, or false where there are no more
 *     void play(const uint8_t *bytes, uint64_t count, double quality);
 *
 *     uint8_t receive(void) {
 *         static int8_t soft[3072];
 *         uint8_t refusal = feltcomet_set_up(0, SIZE, RATE, 3, 0, 1, ring, sizeof ring, state, 11);
 *         while (refusal == 0 && next_symbol(soft)) {
 *             refusal = feltcomet_feed_symbol(state, 11, soft, 3072, cif, sizeof cif, ring, sizeof ring, deinterleaved,
 *                                             sizeof deinterleaved, depunctured, sizeof depunctured, words, STEPS, bits, STEPS, frame,
 *                                             sizeof frame, length, 1, percent, 1);
 *             if (refusal == 0 && length[0] > 0)
 *                 play(frame, length[0], percent[0]);
 *         }
 *         return refusal; // 0, or what the list above says
 *     }
 */

#ifdef __cplusplus
}
#endif

#endif
