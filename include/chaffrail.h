/* Chaffrail: proved functions that put pixels, audio and control on an HDMI cable, and readers for what they write.
 *
 * Every input gets an answer. A refused call writes to no lent buffer. A buffer crosses as a pointer and a length in bytes; where the length is 0 its
 * pointer is not looked at. Two buffers of one call do not overlap. What is wider than a byte crosses as bytes, the low byte first: a symbol as two, a
 * word of three lanes as four. A buffer may lie at any address.
 *
 * Nothing is kept between calls and nothing is shared, so any thread, core or interrupt may call, each with buffers of its own. On a Cortex-M33 no call
 * needs more than 768 bytes of stack, and most need less than 64; docs/BENCHMARKS.md has each function's.
 *
 * A whole example, include/example.c:
 *
 *     #include "chaffrail.h"
 *     #include <stdio.h>
 *
 *     int main(void)
 *     {
 *         uint8_t row[2] = {0x00, 0x00}, symbols[4], back[2], packet[36], island[144], found[36];
 *         chaffrail_answer a = chaffrail_encode_row(0, row, sizeof row, symbols, sizeof symbols);
 *         printf("refusal %u, discrepancy %d, symbols %02x%02x %02x%02x\n", (unsigned)a.refusal, (int)a.carry, symbols[1], symbols[0], symbols[3], symbols[2]);
 *         a = chaffrail_read_row(symbols, sizeof symbols, back, sizeof back);
 *         printf("refusal %u, bytes %02x %02x\n", (unsigned)a.refusal, back[0], back[1]);
 *         a = chaffrail_set_audio_clock_regeneration(packet, sizeof packet, 25200, 6144);
 *         printf("refusal %u, header %02x %02x %02x %02x\n", (unsigned)a.refusal, packet[0], packet[1], packet[2], packet[3]);
 *         a = chaffrail_encode_island(2, packet, sizeof packet, island, sizeof island);
 *         printf("refusal %u, guard word %02x%02x%02x%02x\n", (unsigned)a.refusal, island[3], island[2], island[1], island[0]);
 *         a = chaffrail_read_island(island, sizeof island, found, sizeof found);
 *         printf("refusal %u, sync pair %u, header %02x\n", (unsigned)a.refusal, (unsigned)a.value, found[0]);
 *         a = chaffrail_counter_advance(524, chaffrail_vga_timing());
 *         printf("refusal %u, next line %u\n", (unsigned)a.refusal, (unsigned)a.carry);
 *         a = chaffrail_encode_symbol(5, 0x10);
 *         printf("refusal %u, discrepancy %d\n", (unsigned)a.refusal, (int)a.carry);
 *         return 0;
 *     }
 */
#ifndef CHAFFRAIL_H
#define CHAFFRAIL_H

/* The interface: another number whenever a signature or a struct changes. */
#define CHAFFRAIL_INTERFACE 1

#include <stddef.h>
#include <stdint.h>

#ifdef __cplusplus
extern "C" {
#endif

/* The refusals. The lowest number that applies is given, and within it the lowest place. */
enum chaffrail_refusal {
    CHAFFRAIL_FINE = 0,
    CHAFFRAIL_LENGTH = 1,            /* a lent buffer has the wrong length */
    CHAFFRAIL_DISCREPANCY = 2,       /* the discrepancy is outside -4..4 */
    CHAFFRAIL_SYNC_PAIR = 3,         /* the sync pair is above 3 */
    CHAFFRAIL_UNLISTED = 4,          /* a field, polarity, line state, TERC4 number, command count or joined symbol isn't one of the listed numbers */
    CHAFFRAIL_FRAME_COUNT = 5,       /* the audio frame count is outside 0..191 */
    CHAFFRAIL_CLOCK_VALUE = 6,       /* CTS or N is 1,048,576 or more */
    CHAFFRAIL_TIMING_RANGE = 7,      /* the timing is outside its ranges */
    CHAFFRAIL_LINE_COUNTER = 8,      /* the line counter isn't below the total of lines */
    CHAFFRAIL_LINE_OFFSET = 9,       /* counter and offset together are above 4,294,967,295 */
    CHAFFRAIL_UNBALANCED = 10,       /* a pair that must balance ends off zero */
    CHAFFRAIL_NOT_DATA = 11,         /* not a data symbol; the place is its index */
    CHAFFRAIL_HIGH_BITS = 12,        /* an island word has bit 30 or 31 set; the place is its index */
    CHAFFRAIL_GUARD_WORD = 13,       /* a guard word is wrong; the place is its index */
    CHAFFRAIL_NOT_TERC4 = 14,        /* not TERC4; the place is its index */
    CHAFFRAIL_SYNC_BITS = 15,        /* lane 0's marker or sync bits are wrong; the place is the word's index */
    CHAFFRAIL_HEADER_PARITY = 16,    /* the header's parity is wrong */
    CHAFFRAIL_SUBPACKET_PARITY = 17  /* a subpacket's parity is wrong; the place is the subpacket */
};

/* A refusal in words, for a log. */
static inline const char *chaffrail_refusal_text(uint32_t refusal)
{
    switch (refusal) {
    case CHAFFRAIL_FINE: return "fine";
    case CHAFFRAIL_LENGTH: return "a buffer has the wrong length";
    case CHAFFRAIL_DISCREPANCY: return "the discrepancy is outside -4..4";
    case CHAFFRAIL_SYNC_PAIR: return "the sync pair is above 3";
    case CHAFFRAIL_UNLISTED: return "a number is none of the listed ones";
    case CHAFFRAIL_FRAME_COUNT: return "the audio frame count is outside 0..191";
    case CHAFFRAIL_CLOCK_VALUE: return "CTS or N has more than 20 bits";
    case CHAFFRAIL_TIMING_RANGE: return "the timing is outside its ranges";
    case CHAFFRAIL_LINE_COUNTER: return "the line counter is past the last line";
    case CHAFFRAIL_LINE_OFFSET: return "line counter and offset don't fit 32 bits together";
    case CHAFFRAIL_UNBALANCED: return "the pair doesn't balance";
    case CHAFFRAIL_NOT_DATA: return "not a data symbol";
    case CHAFFRAIL_HIGH_BITS: return "an island word has a high bit set";
    case CHAFFRAIL_GUARD_WORD: return "a guard word is wrong";
    case CHAFFRAIL_NOT_TERC4: return "not a TERC4 symbol";
    case CHAFFRAIL_SYNC_BITS: return "lane 0's marker or sync bits are wrong";
    case CHAFFRAIL_HEADER_PARITY: return "the header's parity is wrong";
    case CHAFFRAIL_SUBPACKET_PARITY: return "a subpacket's parity is wrong";
    default: return "no refusal has this number";
    }
}

/* Lengths of buffers, in bytes. */
enum chaffrail_length {
    CHAFFRAIL_ROW_MOST = 4096,        /* a row's bytes in one call; its symbols take twice as many */
    CHAFFRAIL_PACKET_LENGTH = 36,
    CHAFFRAIL_SAMPLES_MOST = 16,      /* four frames of two samples */
    CHAFFRAIL_ISLAND_LENGTH = 144,
    CHAFFRAIL_SYNC_PULSE_LENGTH = 60,
    CHAFFRAIL_SYNC_ONLY_LENGTH = 44,
    CHAFFRAIL_ISLAND_LINE_LENGTH = 224,
    CHAFFRAIL_COUNTER_LENGTH = 4
};

/* What every function answers, but for chaffrail_vga_timing. */
typedef struct chaffrail_answer {
    uint32_t refusal; /* 0, or the refusal's number */
    uint32_t place;   /* where the refusal was met; 0 where it has no place */
    uint32_t value;   /* what is answered; 0 where refused, or where nothing is */
    int32_t carry;    /* what the caller carries to the next call; as it came where refused; 0 where nothing is carried */
} chaffrail_answer;

/* The symbol of a byte on a lane that stands at this discrepancy. Value: the symbol; carry: the discrepancy after it. Refusal: 2. */
chaffrail_answer chaffrail_encode_symbol(int32_t discrepancy, uint8_t byte);

/* The byte of a data symbol. Value: the byte. Refusal: 11. */
chaffrail_answer chaffrail_read_symbol(uint16_t symbol);

/* The control symbol of the levels C0 and C1; a level is 0 for low, else high. Value: the symbol. Never refused. */
chaffrail_answer chaffrail_control_symbol(uint8_t c0, uint8_t c1);

/* Two symbols of ten bits in a word, the first in bits 0..9, the second in 10..19. Value: the word. Refusal: 4. */
chaffrail_answer chaffrail_join_symbols(uint16_t first, uint16_t second);

/* Two bytes on a lane that stands at 0 and is left there. Value: the pair's word. Refusal: 10. */
chaffrail_answer chaffrail_encode_pair(uint8_t b0, uint8_t b1);

/* Two bytes on a lane that stands at 0. Value: the pair's word; carry: the discrepancy after it. Never refused. */
chaffrail_answer chaffrail_encode_pair_discrepancy(uint8_t b0, uint8_t b1);

/* A byte and the byte that differs in its lowest bit. Value: the pair's word. Refusal: 10. */
chaffrail_answer chaffrail_encode_balanced_approx(uint8_t byte);

/* The symbols of a row of 0 to 4,096 bytes, or of a piece of a longer one, two bytes for each. Carry: the discrepancy after it, with which the
 * next piece begins. Refusals: 1 unless symbols_len is twice bytes_len and that at most 4,096; 2. */
chaffrail_answer chaffrail_encode_row(int32_t discrepancy, const uint8_t *bytes, size_t bytes_len, uint8_t *symbols, size_t symbols_len);

/* The bytes of a row of 0 to 4,096 symbols of two bytes each. Nothing is written before every symbol was looked at.
 * Refusals: 1 unless symbols_len is twice bytes_len and that at most 4,096; 11 with the index of the first symbol that is no data symbol. */
chaffrail_answer chaffrail_read_row(const uint8_t *symbols, size_t symbols_len, uint8_t *bytes, size_t bytes_len);

/* The parity byte of a block of any length. Value: the byte. Never refused. */
chaffrail_answer chaffrail_parity(const uint8_t *block, size_t block_len);

/* TERC4 of a number. Value: the symbol. Refusal: 4 from 16 on. */
chaffrail_answer chaffrail_terc4_symbol(uint8_t number);

/* The number of a TERC4 symbol. Value: the number. Refusal: 14. */
chaffrail_answer chaffrail_read_terc4(uint16_t symbol);

/* The packets: all 36 bytes are written, header 4, then four subpackets of 8, parity bytes included. Refusal 1 unless packet_len is 36. */

/* Audio samples: up to four frames, left then right, each sample 16 bits in two's complement as two bytes, so 0, 4, 8, 12 or 16 bytes. The count
 * says how many frames come before the next block of 192. Carry: the count after these frames. Refusals: 1, also for other lengths of samples; 5. */
chaffrail_answer chaffrail_set_audio(uint8_t *packet, size_t packet_len, const uint8_t *samples, size_t samples_len, int32_t count);

/* Audio clock regeneration. Refusals: 1; 6. */
chaffrail_answer chaffrail_set_audio_clock_regeneration(uint8_t *packet, size_t packet_len, uint32_t cts, uint32_t n);

/* Audio info: two channels of 16 bits; 48000 and 44100 are named in it, any other rate isn't. Refusal: 1. */
chaffrail_answer chaffrail_set_audio_info_frame(uint8_t *packet, size_t packet_len, uint32_t rate);

/* The fields of AVI info, by CEA-861-D's letters. */
enum chaffrail_scan { CHAFFRAIL_S_NO_DATA = 0, CHAFFRAIL_S_OVERSCAN = 1, CHAFFRAIL_S_UNDERSCAN = 2 };
enum chaffrail_pixel_format { CHAFFRAIL_Y_RGB = 0, CHAFFRAIL_Y_YCBCR_422 = 1, CHAFFRAIL_Y_YCBCR_444 = 2 };
enum chaffrail_colorimetry { CHAFFRAIL_C_NO_DATA = 0, CHAFFRAIL_C_ITU_601 = 1, CHAFFRAIL_C_ITU_709 = 2, CHAFFRAIL_C_EXTENDED = 3 };
enum chaffrail_picture_aspect { CHAFFRAIL_M_NO_DATA = 0, CHAFFRAIL_M_4_3 = 1, CHAFFRAIL_M_16_9 = 2 };
enum chaffrail_active_aspect {
    CHAFFRAIL_R_NO_DATA = 0,
    CHAFFRAIL_R_AS_PICTURE = 8,
    CHAFFRAIL_R_4_3 = 9,
    CHAFFRAIL_R_16_9 = 10,
    CHAFFRAIL_R_14_9 = 11
};
enum chaffrail_quantization { CHAFFRAIL_Q_DEFAULT = 0, CHAFFRAIL_Q_LIMITED = 1, CHAFFRAIL_Q_FULL = 2 };
enum chaffrail_video_code { CHAFFRAIL_V_640_480_60 = 1, CHAFFRAIL_V_720_480_60 = 2 };

/* AVI info from the numbers of its fields, those above. Refusals: 1; 4. */
chaffrail_answer chaffrail_set_avi_info_frame(uint8_t *packet, size_t packet_len, uint32_t s, uint32_t y, uint32_t c, uint32_t m, uint32_t r,
                                              uint32_t q, uint32_t v);

/* The 36 words of an island with one packet of 36 bytes, four bytes for each word; hv is the horizontal level plus twice the vertical one. The
 * packet's parity bytes are sent as they are. Refusals: 1 unless packet_len is 36 and words_len 144; 3. */
chaffrail_answer chaffrail_encode_island(uint8_t hv, const uint8_t *packet, size_t packet_len, uint8_t *words, size_t words_len);

/* The packet of an island, whose 36 words are four bytes each. Value: the sync pair of the island, 0..3. Nothing is written before every word was
 * looked at. Refusals: 1 unless words_len is 144 and packet_len 36; 12, 13, 14 and 15 with the index of the first word that is wrong; 16; 17 with the
 * first subpacket whose parity is wrong. */
chaffrail_answer chaffrail_read_island(const uint8_t *words, size_t words_len, uint8_t *packet, size_t packet_len);

enum chaffrail_polarity { CHAFFRAIL_NEGATIVE = 0, CHAFFRAIL_POSITIVE = 1 };

/* A display mode. Polarities are those above, the bit clock is in kilohertz. Ranges: front porch 9..4095, sync 37..4095, back
 * porch 11..4095, active pixels 9..4095, each vertical number 1..4095. */
typedef struct chaffrail_timing {
    uint32_t h_front_porch;
    uint32_t h_sync_width;
    uint32_t h_back_porch;
    uint32_t h_active_pixels;
    uint32_t v_front_porch;
    uint32_t v_sync_width;
    uint32_t v_back_porch;
    uint32_t v_active_lines;
    uint32_t bit_clk;
    uint8_t h_sync_polarity;
    uint8_t v_sync_polarity;
} chaffrail_timing;

/* 640 by 480 at 60 Hz. */
chaffrail_timing chaffrail_vga_timing(void);

/* Whether lines can be made of a timing. Refusals: 4 for a polarity; 7. */
chaffrail_answer chaffrail_check_timing(chaffrail_timing timing);

/* The control word while horizontal and vertical sync are on or off; 0 is off, else on. Value: the word of three lanes. Refusal: 4 for a polarity;
 * the ranges aren't asked. */
chaffrail_answer chaffrail_tmds3_for_sync(chaffrail_timing timing, uint8_t h_sync, uint8_t v_sync);

/* The command to the expander to send the next words as they stand. Value: the command word. Refusal: 4 unless words is 1..4095. */
chaffrail_answer chaffrail_hstx_cmd_raw(uint32_t words);

/* The command to the expander to send the next word so many times. Value: the command word. Refusal: 4 unless times is 1..4095. */
chaffrail_answer chaffrail_hstx_cmd_raw_repeat(uint32_t times);

/* The 15 words of a blanking with a sync pulse, four bytes for each; v_sync is 0 for off, else on. Refusals: 1 unless line_len is 60; 4 for a
 * polarity; 7. */
chaffrail_answer chaffrail_make_sync_pulse(chaffrail_timing timing, uint8_t v_sync, uint8_t *line, size_t line_len);

/* The 11 words of a line without pixels. Refusals: 1 unless line_len is 44; 4 for a polarity; 7. */
chaffrail_answer chaffrail_make_sync_line_only(chaffrail_timing timing, uint8_t v_sync, uint8_t *line, size_t line_len);

/* The command words of an island line of 56 words, at 0, 2, 4, 41, 43 and 45; the other words stay as lent. Refusals: 1 unless line_len is 224;
 * 4 for a polarity; 7. */
chaffrail_answer chaffrail_init_data_island(chaffrail_timing timing, uint8_t *line, size_t line_len);

/* What a line is, from the top of a frame. */
enum chaffrail_line_state { CHAFFRAIL_FRONT_PORCH = 0, CHAFFRAIL_SYNC = 1, CHAFFRAIL_BACK_PORCH = 2, CHAFFRAIL_ACTIVE = 3 };

/* The other 50 words of an island line, with one packet of 36 bytes; state is one of those above. Refusals: 1 unless line_len is 224 and packet_len 36; 4
 * for a state or a polarity; 7. */
chaffrail_answer chaffrail_encode_data_island(chaffrail_timing timing, uint8_t *line, size_t line_len, uint8_t state, const uint8_t *packet,
                                              size_t packet_len);

/* The same with a packet of 36 zeros. Refusals: 1 unless line_len is 224; 4 for a state or a polarity; 7. */
chaffrail_answer chaffrail_encode_data_island_empty(chaffrail_timing timing, uint8_t *line, size_t line_len, uint8_t state);

/* The line counter says which line of a frame is sent, from 0 to the total of lines less one. The carry has its 32 bits, so (uint32_t)a.carry is the
 * counter, where it goes by value. Refusals of all four: 4 for a polarity; 7; 8. */

/* The counter one line on, and from the last line back to 0. Carry: the next counter. */
chaffrail_answer chaffrail_counter_advance(uint32_t counter, chaffrail_timing timing);

/* The same where the counter lies, for the loop that sends lines: four bytes, the low byte first, left as they are where it is refused. Refused with
 * 1 unless counter_len is 4. */
chaffrail_answer chaffrail_counter_advance_in_place(uint8_t *counter, size_t counter_len, chaffrail_timing timing);

/* What the line is. Value: a chaffrail_line_state; carry: the counter. */
chaffrail_answer chaffrail_counter_state(uint32_t counter, chaffrail_timing timing);

/* The value for a line that shows no row of pixels. */
#define CHAFFRAIL_NO_ROW UINT32_C(4294967295)

/* The row of pixels that the line `offset` lines on shows; it doesn't wrap into the next frame. Value: the row, or CHAFFRAIL_NO_ROW; carry: the
 * counter. Refused with 9 too, where counter and offset together don't fit 32 bits. */
chaffrail_answer chaffrail_counter_row(uint32_t counter, chaffrail_timing timing, uint32_t offset);

#ifdef __cplusplus
}
#endif

#endif
