/* Holds each number of the header, and the timing's layout, to what the library answers: says which is wrong, and ends with 1. */
#include "chaffrail.h"
#include <stdio.h>
#include <string.h>

static int wrong;

#define HOLDS(what) ((what) ? (void)0 : (void)(wrong = 1, printf("numbers: not so: %s\n", #what)))

static uint8_t row[CHAFFRAIL_ROW_MOST + 1], symbols[2 * CHAFFRAIL_ROW_MOST + 2], packet[CHAFFRAIL_PACKET_LENGTH + 1], samples[CHAFFRAIL_SAMPLES_MOST + 4];
static uint8_t island[CHAFFRAIL_ISLAND_LENGTH + 1], line[CHAFFRAIL_ISLAND_LINE_LENGTH + 1], counter[CHAFFRAIL_COUNTER_LENGTH + 1];

/* A call that takes this length, and neither one less nor one more. */
#define LENGTH_IS(length, call)                                                                                              \
    do {                                                                                                                     \
        size_t n = (length);                                                                                                 \
        HOLDS((call).refusal == CHAFFRAIL_FINE);                                                                             \
        n = (length) + 1;                                                                                                    \
        HOLDS((call).refusal == CHAFFRAIL_LENGTH);                                                                           \
        n = (length) - 1;                                                                                                    \
        HOLDS((call).refusal == CHAFFRAIL_LENGTH);                                                                           \
    } while (0)

static void lengths(chaffrail_timing vga)
{
    HOLDS(chaffrail_encode_row(0, row, CHAFFRAIL_ROW_MOST, symbols, 2 * CHAFFRAIL_ROW_MOST).refusal == CHAFFRAIL_FINE);
    HOLDS(chaffrail_encode_row(0, row, CHAFFRAIL_ROW_MOST + 1, symbols, 2 * CHAFFRAIL_ROW_MOST + 2).refusal == CHAFFRAIL_LENGTH);
    HOLDS(chaffrail_encode_row(0, 0, 0, 0, 0).refusal == CHAFFRAIL_FINE && chaffrail_read_row(0, 0, 0, 0).refusal == CHAFFRAIL_FINE);
    HOLDS(chaffrail_parity(0, 0).refusal == CHAFFRAIL_FINE);
    LENGTH_IS(CHAFFRAIL_PACKET_LENGTH, chaffrail_set_audio_info_frame(packet, n, 48000));
    HOLDS(chaffrail_set_audio(packet, 36, samples, CHAFFRAIL_SAMPLES_MOST, 0).refusal == CHAFFRAIL_FINE);
    HOLDS(chaffrail_set_audio(packet, 36, samples, CHAFFRAIL_SAMPLES_MOST + 4, 0).refusal == CHAFFRAIL_LENGTH);
    HOLDS(chaffrail_set_audio(packet, 36, 0, 0, 0).refusal == CHAFFRAIL_FINE);
    LENGTH_IS(CHAFFRAIL_ISLAND_LENGTH, chaffrail_encode_island(0, packet, 36, island, n));
    LENGTH_IS(CHAFFRAIL_SYNC_PULSE_LENGTH, chaffrail_make_sync_pulse(vga, 0, line, n));
    LENGTH_IS(CHAFFRAIL_SYNC_ONLY_LENGTH, chaffrail_make_sync_line_only(vga, 0, line, n));
    LENGTH_IS(CHAFFRAIL_ISLAND_LINE_LENGTH, chaffrail_init_data_island(vga, line, n));
    LENGTH_IS(CHAFFRAIL_COUNTER_LENGTH, chaffrail_counter_advance_in_place(counter, n, vga));
}

/* The word of an island and its place in it, changed; what the reader says to it. */
static chaffrail_answer read_with(uint32_t word, uint8_t byte, uint8_t bits)
{
    island[4 * word + byte] ^= bits;
    chaffrail_answer a = chaffrail_read_island(island, 144, packet, 36);
    island[4 * word + byte] ^= bits;
    return a;
}

/* The reader's answer where one bit of the packet is another. */
static chaffrail_answer read_packet_with(uint32_t at)
{
    uint8_t right[36];
    memcpy(right, packet, 36);
    packet[at] ^= 1;
    chaffrail_encode_island(0, packet, 36, island, 144);
    chaffrail_answer a = chaffrail_read_island(island, 144, packet, 36);
    memcpy(packet, right, 36);
    chaffrail_encode_island(0, packet, 36, island, 144);
    return a;
}

static void refusals(chaffrail_timing vga)
{
    chaffrail_timing short_porch = vga;
    chaffrail_answer a;
    short_porch.h_front_porch = 8;
    HOLDS(chaffrail_encode_symbol(5, 0).refusal == CHAFFRAIL_DISCREPANCY);
    HOLDS(chaffrail_encode_island(4, packet, 36, island, 144).refusal == CHAFFRAIL_SYNC_PAIR);
    HOLDS(chaffrail_terc4_symbol(16).refusal == CHAFFRAIL_UNLISTED);
    HOLDS(chaffrail_set_audio(packet, 36, samples, 4, 192).refusal == CHAFFRAIL_FRAME_COUNT);
    HOLDS(chaffrail_set_audio_clock_regeneration(packet, 36, 1048576, 0).refusal == CHAFFRAIL_CLOCK_VALUE);
    HOLDS(chaffrail_check_timing(short_porch).refusal == CHAFFRAIL_TIMING_RANGE);
    HOLDS(chaffrail_counter_state(525, vga).refusal == CHAFFRAIL_LINE_COUNTER);
    HOLDS(chaffrail_counter_row(1, vga, UINT32_MAX).refusal == CHAFFRAIL_LINE_OFFSET);
    HOLDS(chaffrail_encode_pair(0, 0).refusal == CHAFFRAIL_UNBALANCED);
    HOLDS(chaffrail_read_symbol(0x354).refusal == CHAFFRAIL_NOT_DATA);
    HOLDS(chaffrail_read_terc4(0).refusal == CHAFFRAIL_NOT_TERC4);
    chaffrail_set_audio_info_frame(packet, 36, 48000);
    chaffrail_encode_island(0, packet, 36, island, 144);
    HOLDS(chaffrail_read_island(island, 144, packet, 36).refusal == CHAFFRAIL_FINE);
    a = read_with(7, 3, 0x40);
    HOLDS(a.refusal == CHAFFRAIL_HIGH_BITS && a.place == 7);
    a = read_with(34, 0, 1);
    HOLDS(a.refusal == CHAFFRAIL_GUARD_WORD && a.place == 34);
    a = read_with(9, 0, 1);
    HOLDS(a.refusal == CHAFFRAIL_NOT_TERC4 && a.place == 9);
    uint8_t lane_0[2];
    memcpy(lane_0, island + 4 * 5, 2); /* word 5 without the marker: TERC4 of 0 on lane 0 */
    island[4 * 5] = 0x9c;
    island[4 * 5 + 1] = (uint8_t)((lane_0[1] & 0xfc) | 2);
    a = chaffrail_read_island(island, 144, packet, 36);
    HOLDS(a.refusal == CHAFFRAIL_SYNC_BITS && a.place == 5);
    memcpy(island + 4 * 5, lane_0, 2);
    HOLDS(read_packet_with(0).refusal == CHAFFRAIL_HEADER_PARITY);
    a = read_packet_with(4 + 2 * 8);
    HOLDS(a.refusal == CHAFFRAIL_SUBPACKET_PARITY && a.place == 2);
    for (uint32_t n = 0; n <= 18; n++)
        for (uint32_t m = 0; m < n; m++) HOLDS(strcmp(chaffrail_refusal_text(n), chaffrail_refusal_text(m)) != 0);
}

static void timing(chaffrail_timing vga)
{
    HOLDS(vga.h_front_porch == 16 && vga.h_sync_width == 96 && vga.h_back_porch == 48 && vga.h_active_pixels == 640);
    HOLDS(vga.v_front_porch == 10 && vga.v_sync_width == 2 && vga.v_back_porch == 33 && vga.v_active_lines == 480);
    HOLDS(vga.bit_clk == 252000 && vga.h_sync_polarity == CHAFFRAIL_NEGATIVE && vga.v_sync_polarity == CHAFFRAIL_NEGATIVE);
    HOLDS(sizeof vga == 40 && sizeof(chaffrail_answer) == 16);
    HOLDS(chaffrail_counter_state(0, vga).value == CHAFFRAIL_FRONT_PORCH && chaffrail_counter_state(10, vga).value == CHAFFRAIL_SYNC);
    HOLDS(chaffrail_counter_state(12, vga).value == CHAFFRAIL_BACK_PORCH && chaffrail_counter_state(45, vga).value == CHAFFRAIL_ACTIVE);
    HOLDS(chaffrail_counter_row(44, vga, 0).value == CHAFFRAIL_NO_ROW && chaffrail_counter_row(45, vga, 0).value == 0);
    chaffrail_timing t = vga; /* a line without sync is high on the lane whose sync is negative: C0 for horizontal, C1 for vertical */
    t.h_sync_polarity = CHAFFRAIL_POSITIVE;
    HOLDS((chaffrail_tmds3_for_sync(t, 0, 0).value & 0x3ff) == chaffrail_control_symbol(0, 1).value);
    t.h_sync_polarity = CHAFFRAIL_NEGATIVE;
    t.v_sync_polarity = CHAFFRAIL_POSITIVE;
    HOLDS((chaffrail_tmds3_for_sync(t, 0, 0).value & 0x3ff) == chaffrail_control_symbol(1, 0).value);
}

/* Bytes 1 to 4 of AVI info; 0 where it is refused. */
static uint32_t avi(uint32_t s, uint32_t y, uint32_t c, uint32_t m, uint32_t r, uint32_t q, uint32_t v)
{
    if (chaffrail_set_avi_info_frame(packet, 36, s, y, c, m, r, q, v).refusal) return 0;
    return packet[5] | (uint32_t)packet[6] << 8 | (uint32_t)packet[7] << 16 | (uint32_t)packet[8] << 24;
}

/* Each name in the bits where CEA-861-D has its field. */
static void avi_fields(void)
{
    const uint32_t v = CHAFFRAIL_V_640_480_60, none = avi(0, 0, 0, 0, 0, 0, v), a = 0x10;
    HOLDS(none == 0x01000000);
    HOLDS(avi(CHAFFRAIL_S_OVERSCAN, 0, 0, 0, 0, 0, v) == none + 1 && avi(CHAFFRAIL_S_UNDERSCAN, 0, 0, 0, 0, 0, v) == none + 2);
    HOLDS(avi(0, CHAFFRAIL_Y_YCBCR_422, 0, 0, 0, 0, v) == none + 0x20 && avi(0, CHAFFRAIL_Y_YCBCR_444, 0, 0, 0, 0, v) == none + 0x40);
    HOLDS(avi(0, 0, CHAFFRAIL_C_ITU_601, 0, 0, 0, v) == none + 0x4000 && avi(0, 0, CHAFFRAIL_C_ITU_709, 0, 0, 0, v) == none + 0x8000);
    HOLDS(avi(0, 0, CHAFFRAIL_C_EXTENDED, 0, 0, 0, v) == none + 0xc000);
    HOLDS(avi(0, 0, 0, CHAFFRAIL_M_4_3, 0, 0, v) == none + 0x1000 && avi(0, 0, 0, CHAFFRAIL_M_16_9, 0, 0, v) == none + 0x2000);
    HOLDS(avi(0, 0, 0, 0, CHAFFRAIL_R_AS_PICTURE, 0, v) == none + a + 0x800 && avi(0, 0, 0, 0, CHAFFRAIL_R_4_3, 0, v) == none + a + 0x900);
    HOLDS(avi(0, 0, 0, 0, CHAFFRAIL_R_16_9, 0, v) == none + a + 0xa00 && avi(0, 0, 0, 0, CHAFFRAIL_R_14_9, 0, v) == none + a + 0xb00);
    HOLDS(avi(0, 0, 0, 0, 0, CHAFFRAIL_Q_LIMITED, v) == none + 0x40000 && avi(0, 0, 0, 0, 0, CHAFFRAIL_Q_FULL, v) == none + 0x80000);
    HOLDS(avi(0, 0, 0, 0, 0, 0, CHAFFRAIL_V_720_480_60) == none + 0x01000000);
    HOLDS(avi(CHAFFRAIL_S_NO_DATA, CHAFFRAIL_Y_RGB, CHAFFRAIL_C_NO_DATA, CHAFFRAIL_M_NO_DATA, CHAFFRAIL_R_NO_DATA, CHAFFRAIL_Q_DEFAULT, v) == none);
}

int main(void)
{
    chaffrail_timing vga = chaffrail_vga_timing();
    lengths(vga);
    refusals(vga);
    timing(vga);
    avi_fields();
    return wrong;
}
