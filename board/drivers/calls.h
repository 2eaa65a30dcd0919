/* What the driver's families share: numbers that are the same on every machine, buffers that are lent, and the record of each call. */
#ifndef CALLS_H
#define CALLS_H

#include "chaffrail.h"

#define BIT(refusal) (UINT32_C(1) << (refusal))

/* Every function that answers a chaffrail_answer, with the refusals that include/chaffrail.h says it has. */
#define ENTRIES(ENTRY)                                                                                                       \
    ENTRY(encode_symbol, BIT(2))                                                                                             \
    ENTRY(read_symbol, BIT(11))                                                                                              \
    ENTRY(control_symbol, 0)                                                                                                 \
    ENTRY(join_symbols, BIT(4))                                                                                              \
    ENTRY(encode_pair, BIT(10))                                                                                              \
    ENTRY(encode_pair_discrepancy, 0)                                                                                        \
    ENTRY(encode_balanced_approx, NEVER_MET(10))                                                                             \
    ENTRY(encode_row, BIT(1) | BIT(2))                                                                                       \
    ENTRY(read_row, BIT(1) | BIT(11))                                                                                        \
    ENTRY(parity, 0)                                                                                                         \
    ENTRY(terc4_symbol, BIT(4))                                                                                              \
    ENTRY(read_terc4, BIT(14))                                                                                               \
    ENTRY(set_audio, BIT(1) | BIT(5))                                                                                        \
    ENTRY(set_audio_clock_regeneration, BIT(1) | BIT(6))                                                                     \
    ENTRY(set_audio_info_frame, BIT(1))                                                                                      \
    ENTRY(set_avi_info_frame, BIT(1) | BIT(4))                                                                               \
    ENTRY(encode_island, BIT(1) | BIT(3))                                                                                    \
    ENTRY(read_island, BIT(1) | BIT(12) | BIT(13) | BIT(14) | BIT(15) | BIT(16) | BIT(17))                                   \
    ENTRY(check_timing, BIT(4) | BIT(7))                                                                                     \
    ENTRY(tmds3_for_sync, BIT(4))                                                                                            \
    ENTRY(hstx_cmd_raw, BIT(4))                                                                                              \
    ENTRY(hstx_cmd_raw_repeat, BIT(4))                                                                                       \
    ENTRY(make_sync_pulse, BIT(1) | BIT(4) | BIT(7))                                                                         \
    ENTRY(make_sync_line_only, BIT(1) | BIT(4) | BIT(7))                                                                     \
    ENTRY(init_data_island, BIT(1) | BIT(4) | BIT(7))                                                                        \
    ENTRY(encode_data_island, BIT(1) | BIT(4) | BIT(7))                                                                      \
    ENTRY(encode_data_island_empty, BIT(1) | BIT(4) | BIT(7))                                                                \
    ENTRY(counter_advance, BIT(4) | BIT(7) | BIT(8))                                                                         \
    ENTRY(counter_advance_in_place, BIT(1) | BIT(4) | BIT(7) | BIT(8))                                                       \
    ENTRY(counter_state, BIT(4) | BIT(7) | BIT(8))                                                                           \
    ENTRY(counter_row, BIT(4) | BIT(7) | BIT(8) | BIT(9))

/* A refusal that the header names and no input meets. */
#define NEVER_MET(refusal) 0

enum entry {
#define ENTRY(name, refusals) ENTRY_##name,
    ENTRIES(ENTRY)
#undef ENTRY
};

/* ---- numbers (xorshift64*), one at a time: C doesn't say in which order the operands of a call are worked out, so no call here draws two */
uint32_t any(void);
uint32_t below(uint32_t n);
/* One time in so many. */
int once_in(uint32_t n);
/* One of the numbers in an array. */
#define ONE_OF(numbers) ((numbers)[below(sizeof(numbers) / sizeof *(numbers))])

/* ---- buffers. Each lies at an address of any alignment with bytes behind it that nobody may touch. */
struct lent {
    uint8_t *room, *before; /* as large as `holds`, with MARGIN before and behind */
    size_t holds;
    uint8_t *bytes; /* what is lent */
    size_t len;     /* as the call is told, right or wrong */
};
enum { MARGIN = 8 };
#define LENT(name, bytes_held)                                                                                               \
    static uint8_t name##_room[(bytes_held) + 2 * MARGIN], name##_before[(bytes_held) + 2 * MARGIN];                         \
    static struct lent name = {name##_room, name##_before, (bytes_held), 0, 0}

/* Lends a buffer of this length, full of random bytes. A length beyond what it holds is a lie that the call must refuse. */
void lend(struct lent *buffer, size_t len);
/* The right length, or now and then a wrong one: shorter, longer, none, or so long that twice of it wraps around. */
size_t length_near(size_t right);

/* ---- calls: lent buffers are remembered before one and looked at after it */
void remember(struct lent *written, struct lent *read);
/* The answer, and what was written, as a line. Refused, nothing lent may have changed; what was only read never. Either may be null. */
void answered(enum entry entry, chaffrail_answer answer, struct lent *written, struct lent *read);
/* A line of four numbers that are no answer. */
void noted(const char *name, uint32_t a, uint32_t b, uint32_t c, uint32_t d);
/* How often each entry was called, with which refusals; 0 where these are exactly the header's and nothing was found wrong. */
int summed_up(void);

/* ---- families */
void symbols(void);
void rows(void);
void packets(void);
void islands(void);
void timings(void);
void lines(void);
void counters(void);

/* ---- inputs of several families */
/* A display mode, mostly one that lines can be made of. */
chaffrail_timing any_timing(void);

#endif
