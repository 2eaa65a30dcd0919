/* Timings, command words, lines and the line counter. */
#include "calls.h"

static const uint32_t lengths[] = {0, 1, 8, 9, 10, 11, 36, 37, 4094, 4095, 4096, 0x80000000, 0xffffffff};

/* The eight numbers that have ranges, by their index. */
static uint32_t *number(chaffrail_timing *t, uint32_t index)
{
    uint32_t *const numbers[8] = {&t->h_front_porch, &t->h_sync_width, &t->h_back_porch, &t->h_active_pixels,
                                  &t->v_front_porch, &t->v_sync_width, &t->v_back_porch, &t->v_active_lines};
    return numbers[index];
}

/* A mode in its ranges. */
static chaffrail_timing right_timing(void)
{
    static const uint32_t least[8] = {9, 37, 11, 9, 1, 1, 1, 1};
    chaffrail_timing t = chaffrail_vga_timing();
    uint32_t most_lines = once_in(2) ? 8 : 4096;
    for (uint32_t i = 0; i < 8; i++) *number(&t, i) = least[i] + below((i < 4 ? 4096 : most_lines) - least[i]);
    t.bit_clk = any();
    t.h_sync_polarity = (uint8_t)below(2);
    t.v_sync_polarity = (uint8_t)below(2);
    return t;
}

chaffrail_timing any_timing(void)
{
    chaffrail_timing t = once_in(3) ? chaffrail_vga_timing() : right_timing();
    if (once_in(6)) {
        uint32_t index = below(8);
        *number(&t, index) = ONE_OF(lengths);
    }
    if (once_in(12)) t.h_sync_polarity = (uint8_t)any();
    if (once_in(12)) t.v_sync_polarity = (uint8_t)any();
    return t;
}

void timings(void)
{
    chaffrail_timing vga = chaffrail_vga_timing();
    noted("chaffrail_vga_timing", vga.h_front_porch, vga.h_sync_width, vga.h_back_porch, vga.h_active_pixels);
    noted("chaffrail_vga_timing", vga.v_front_porch, vga.v_sync_width, vga.v_back_porch, vga.v_active_lines);
    noted("chaffrail_vga_timing", vga.bit_clk, vga.h_sync_polarity, vga.v_sync_polarity, sizeof vga);

    for (uint32_t i = 0; i < 8 * 13; i++) { /* each number at each edge */
        chaffrail_timing t = vga;
        *number(&t, i % 8) = lengths[i / 8];
        answered(ENTRY_check_timing, chaffrail_check_timing(t), 0, 0);
    }
    for (uint32_t i = 0; i < 65536; i++) { /* both polarities; the levels as they come */
        chaffrail_timing t = vga;
        t.h_sync_polarity = (uint8_t)i;
        t.v_sync_polarity = (uint8_t)(i >> 8);
        uint32_t levels = below(9);
        answered(ENTRY_tmds3_for_sync, chaffrail_tmds3_for_sync(t, (uint8_t)(levels % 3), (uint8_t)(levels / 3)), 0, 0);
    }
    for (uint32_t i = 0; i < 10000; i++) {
        chaffrail_timing t = any_timing();
        uint32_t levels = any();
        answered(ENTRY_check_timing, chaffrail_check_timing(t), 0, 0);
        answered(ENTRY_tmds3_for_sync, chaffrail_tmds3_for_sync(t, (uint8_t)(levels & 1), (uint8_t)(levels >> 8)), 0, 0);
    }
    for (uint32_t i = 0; i < 5000; i++) {
        uint32_t count = i < 4200 ? i : any();
        answered(ENTRY_hstx_cmd_raw, chaffrail_hstx_cmd_raw(count), 0, 0);
        answered(ENTRY_hstx_cmd_raw_repeat, chaffrail_hstx_cmd_raw_repeat(count), 0, 0);
    }
}

/* ---- lines */
LENT(line, 480);
LENT(packet, 80);

void lines(void)
{
    for (uint32_t i = 0; i < 8000; i++) {
        chaffrail_timing t = any_timing();
        uint8_t v_sync = (uint8_t)(once_in(8) ? any() : below(2)), state = (uint8_t)(once_in(8) ? any() : below(4));

        lend(&line, length_near(60));
        remember(&line, 0);
        answered(ENTRY_make_sync_pulse, chaffrail_make_sync_pulse(t, v_sync, line.bytes, line.len), &line, 0);

        lend(&line, length_near(44));
        remember(&line, 0);
        answered(ENTRY_make_sync_line_only, chaffrail_make_sync_line_only(t, v_sync, line.bytes, line.len), &line, 0);

        lend(&line, length_near(224));
        remember(&line, 0);
        answered(ENTRY_init_data_island, chaffrail_init_data_island(t, line.bytes, line.len), &line, 0);

        lend(&line, length_near(224));
        lend(&packet, length_near(36));
        remember(&line, &packet);
        answered(ENTRY_encode_data_island, chaffrail_encode_data_island(t, line.bytes, line.len, state, packet.bytes, packet.len), &line, &packet);

        lend(&line, length_near(224));
        remember(&line, 0);
        answered(ENTRY_encode_data_island_empty, chaffrail_encode_data_island_empty(t, line.bytes, line.len, state), &line, 0);
    }
}

/* ---- the line counter */
LENT(counter, 16);

/* All that is asked of a counter. */
static void counter_at(uint32_t c, chaffrail_timing t, uint32_t offset)
{
    answered(ENTRY_counter_advance, chaffrail_counter_advance(c, t), 0, 0);
    answered(ENTRY_counter_state, chaffrail_counter_state(c, t), 0, 0);
    answered(ENTRY_counter_row, chaffrail_counter_row(c, t, offset), 0, 0);
    lend(&counter, length_near(4));
    for (int i = 0; i < 4; i++) counter.bytes[i] = (uint8_t)(c >> 8 * i);
    remember(&counter, 0);
    answered(ENTRY_counter_advance_in_place, chaffrail_counter_advance_in_place(counter.bytes, counter.len, t), &counter, 0);
}

void counters(void)
{
    chaffrail_timing vga = chaffrail_vga_timing();
    for (uint32_t c = 0; c < 530; c++) /* every line of a frame, and some beyond */
        for (uint32_t offset = 0; offset < 4; offset++) counter_at(c, vga, offset);
    for (uint32_t i = 0; i < 12000; i++) {
        chaffrail_timing t = any_timing();
        uint32_t total = t.v_front_porch + t.v_sync_width + t.v_back_porch + t.v_active_lines;
        uint32_t c = once_in(12) ? any() : once_in(8) ? total - below(2) : below(total);
        uint32_t offset = once_in(8) ? any() : once_in(8) ? 0 - c - below(2) : below(50);
        counter_at(c, t, offset);
    }
}
