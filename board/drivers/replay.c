/* The replay list (crates/replay/stdin says what its lines are) asked of the C functions: how many cases there are, and which the library answers
 * otherwise than the original did. */
#include "chaffrail.h"
#include "machine.h"
#include <string.h>

/* ---- a case: its bytes, inputs first, and how far they are read */
static uint8_t bytes[16384];
static size_t len, inputs, at;

/* The next number, highest byte first. */
static uint32_t number(int width)
{
    uint32_t n = 0;
    for (; width > 0; width--, at++) n = n << 8 | (at < len ? bytes[at] : 0);
    return n;
}

static uint8_t byte(void) { return (uint8_t)number(1); }

static int32_t below_zero_too(void) { return (int8_t)byte(); }

/* The next bytes as they stand. */
static const uint8_t *run(size_t n)
{
    at += n;
    return bytes + at - n;
}

static chaffrail_timing timing(void)
{
    chaffrail_timing t;
    t.h_sync_polarity = byte();
    t.h_front_porch = number(2);
    t.h_sync_width = number(2);
    t.h_back_porch = number(2);
    t.h_active_pixels = number(2);
    t.v_sync_polarity = byte();
    t.v_front_porch = number(2);
    t.v_sync_width = number(2);
    t.v_back_porch = number(2);
    t.v_active_lines = number(2);
    t.bit_clk = 252000;
    return t;
}

/* ---- answers, each held to the next of the case */
static uint8_t out[16384];

static int value_is(chaffrail_answer a, int width) { return !a.refusal && a.value == number(width); }

static int written(chaffrail_answer a, size_t n) { return !a.refusal && memcmp(out, run(n), n) == 0; }

/* Numbers of the case, as the bytes that cross: low byte first. */
static int numbers_written(chaffrail_answer a, int width, size_t count)
{
    int same = !a.refusal;
    for (size_t i = 0; i < count; i++) {
        uint32_t n = number(width);
        for (int k = 0; k < width; k++) same &= out[i * (size_t)width + (size_t)k] == (uint8_t)(n >> 8 * k);
    }
    return same;
}

/* ---- the kinds */
static int symbol(void)
{
    int32_t d = below_zero_too();
    chaffrail_answer a = chaffrail_encode_symbol(d, byte());
    return value_is(a, 2) && a.carry == below_zero_too();
}

static int control(void)
{
    uint8_t c0 = byte(), c1 = byte();
    return value_is(chaffrail_control_symbol(c0, c1), 2);
}

static int joined(void)
{
    uint16_t first = (uint16_t)number(2), second = (uint16_t)number(2);
    return value_is(chaffrail_join_symbols(first, second), 4);
}

static int pair(void)
{
    uint8_t b0 = byte(), b1 = byte();
    chaffrail_answer a = chaffrail_encode_pair_discrepancy(b0, b1);
    return value_is(a, 4) && a.carry == below_zero_too();
}

static int balanced(void)
{
    uint8_t b0 = byte(), b1 = byte();
    return value_is(chaffrail_encode_pair(b0, b1), 4);
}

static int approx(void) { return value_is(chaffrail_encode_balanced_approx(byte()), 4); }

static int row(void)
{
    int32_t d = below_zero_too();
    size_t n = inputs - 1;
    chaffrail_answer a = chaffrail_encode_row(d, run(n), n, out, 2 * n);
    return numbers_written(a, 2, n) && a.carry == below_zero_too();
}

static int parity(void) { return value_is(chaffrail_parity(run(inputs), inputs), 1); }

static int terc4(void) { return value_is(chaffrail_terc4_symbol(byte()), 2); }

static int audio(void)
{
    uint8_t samples[16];
    int32_t count = byte();
    size_t n = inputs - 1;
    if (n > sizeof samples) return 0;
    for (size_t i = 0; i < n; i += 2) {
        uint32_t sample = number(2);
        samples[i] = (uint8_t)sample;
        samples[i + 1] = (uint8_t)(sample >> 8);
    }
    chaffrail_answer a = chaffrail_set_audio(out, 36, samples, n, count);
    return written(a, 36) && a.carry == byte();
}

static int clock(void)
{
    uint32_t cts = number(4), n = number(4);
    return written(chaffrail_set_audio_clock_regeneration(out, 36, cts, n), 36);
}

static int audio_info(void) { return written(chaffrail_set_audio_info_frame(out, 36, number(4)), 36); }

static int avi(void)
{
    const uint8_t *f = run(7);
    return written(chaffrail_set_avi_info_frame(out, 36, f[0], f[1], f[2], f[3], f[4], f[5], f[6]), 36);
}

static int island(void)
{
    uint8_t hv = byte();
    return numbers_written(chaffrail_encode_island(hv, run(36), 36, out, 144), 4, 36);
}

static int vga(void)
{
    chaffrail_timing ours = chaffrail_vga_timing(), t = timing();
    t.bit_clk = number(4);
    return t.h_front_porch == ours.h_front_porch && t.h_sync_width == ours.h_sync_width && t.h_back_porch == ours.h_back_porch &&
           t.h_active_pixels == ours.h_active_pixels && t.v_front_porch == ours.v_front_porch && t.v_sync_width == ours.v_sync_width &&
           t.v_back_porch == ours.v_back_porch && t.v_active_lines == ours.v_active_lines && t.bit_clk == ours.bit_clk &&
           t.h_sync_polarity == ours.h_sync_polarity && t.v_sync_polarity == ours.v_sync_polarity;
}

static int sync(void)
{
    chaffrail_timing t = timing();
    uint8_t h = byte(), v = byte();
    return value_is(chaffrail_tmds3_for_sync(t, h, v), 4);
}

static int pulse(void)
{
    chaffrail_timing t = timing();
    return numbers_written(chaffrail_make_sync_pulse(t, byte(), out, 60), 4, 15);
}

static int only(void)
{
    chaffrail_timing t = timing();
    return numbers_written(chaffrail_make_sync_line_only(t, byte(), out, 44), 4, 11);
}

static int init(void)
{
    chaffrail_timing t = timing();
    uint32_t before = number(4);
    for (size_t i = 0; i < 224; i++) out[i] = (uint8_t)(before >> 8 * (i % 4));
    return numbers_written(chaffrail_init_data_island(t, out, 224), 4, 56);
}

static int island_line(void)
{
    chaffrail_timing t = timing();
    uint8_t state = byte();
    if (chaffrail_init_data_island(t, out, 224).refusal) return 0;
    return numbers_written(chaffrail_encode_data_island(t, out, 224, state, run(36), 36), 4, 56);
}

static int empty_line(void)
{
    chaffrail_timing t = timing();
    uint8_t state = byte();
    if (chaffrail_init_data_island(t, out, 224).refusal) return 0;
    return numbers_written(chaffrail_encode_data_island_empty(t, out, 224, state), 4, 56);
}

static int advance(void)
{
    chaffrail_timing t = timing();
    uint32_t counter = number(4);
    for (int i = 0; i < 4; i++) out[i] = (uint8_t)(counter >> 8 * i);
    chaffrail_answer by_value = chaffrail_counter_advance(counter, t), in_place = chaffrail_counter_advance_in_place(out, 4, t);
    size_t answer = at;
    int same = !by_value.refusal && (uint32_t)by_value.carry == number(4);
    at = answer;
    return same && numbers_written(in_place, 4, 1);
}

static int state(void)
{
    chaffrail_timing t = timing();
    return value_is(chaffrail_counter_state(number(4), t), 1);
}

static int scanline(void)
{
    chaffrail_timing t = timing();
    uint32_t counter = number(4), offset = number(4);
    chaffrail_answer a = chaffrail_counter_row(counter, t, offset);
    uint32_t shown = number(1), index = number(4);
    return !a.refusal && (shown ? a.value == index : a.value == CHAFFRAIL_NO_ROW && index == 0);
}

static const struct {
    const char *name;
    int (*agrees)(void);
} kinds[] = {
    {"symbol", symbol}, {"control", control}, {"joined", joined},           {"pair", pair},
    {"balanced", balanced}, {"approx", approx}, {"row", row},               {"parity", parity},
    {"terc4", terc4},   {"audio", audio},     {"clock", clock},             {"audio_info", audio_info},
    {"avi", avi},       {"island", island},   {"vga", vga},                 {"sync", sync},
    {"pulse", pulse},   {"only", only},       {"init", init},               {"island_line", island_line},
    {"empty_line", empty_line}, {"advance", advance}, {"state", state},     {"scanline", scanline},
};

/* ---- the list */
static char list[1 << 18];

static int digit(char c) { return c >= '0' && c <= '9' ? c - '0' : c >= 'a' && c <= 'f' ? c - 'a' + 10 : -1; }

/* Takes a case apart, from behind its kind on: bytes, with two spaces between inputs and answers. Whether it is one. */
static int taken_apart(const char *c, const char *end)
{
    int answers = 0;
    len = inputs = at = 0;
    while (c < end) {
        if (end - c >= 2 && c[0] == ' ' && c[1] == ' ' && !answers) {
            inputs = len;
            answers = 1;
            c += 2;
        } else if (*c == ' ') {
            c++;
        } else {
            if (end - c < 2 || digit(c[0]) < 0 || digit(c[1]) < 0 || len == sizeof bytes) return 0;
            bytes[len++] = (uint8_t)(digit(c[0]) << 4 | digit(c[1]));
            c += 2;
        }
    }
    return answers;
}

static int agrees(const char *line, const char *end)
{
    const char *kind = line;
    while (line < end && *line != ' ') line++;
    size_t kind_len = (size_t)(line - kind);
    if (!taken_apart(line, end)) return 0;
    memset(out, 0x55, 512);
    for (size_t k = 0; k < sizeof kinds / sizeof *kinds; k++)
        if (strlen(kinds[k].name) == kind_len && memcmp(kinds[k].name, kind, kind_len) == 0) return kinds[k].agrees() && at == len;
    return 0;
}

static void say(const char *text) { machine_write(text, strlen(text)); }

static void say_number(uint32_t n)
{
    char digits[10];
    size_t k = sizeof digits;
    do digits[--k] = (char)('0' + n % 10);
    while (n /= 10);
    machine_write(digits + k, sizeof digits - k);
}

int main(void)
{
    const char *line = list, *all = list + machine_read("stdin", list, sizeof list);
    uint32_t lines = 0, cases = 0, different = 0;
    while (line < all) {
        const char *end = line;
        while (end < all && *end != '\n') end++;
        lines++;
        if (line < end && *line != '#') {
            cases++;
            if (!agrees(line, end)) {
                different++;
                if (different <= 10) {
                    say("replay: other than the original in line ");
                    say_number(lines);
                    say("\n");
                }
            }
        }
        line = end + 1;
    }
    say("replay: ");
    say_number(cases);
    say(" cases, ");
    say_number(different);
    say(" different\n");
    return cases == 0 || different != 0;
}
