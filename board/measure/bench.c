/* How many instructions ours and the original take on the emulated board, and how deep ours reaches into the stack. Run under qemu's -icount shift=0,
 * where an instruction takes a nanosecond of the machine's time. A line for each entry: its name, what a figure is for, ours, the original's (0 where it
 * has none), both in tenths of an instruction, and the stack in bytes. The driver's own loop is in every figure; the first line has it alone. */
#include "chaffrail.h"
#include "machine.h"
#include <string.h>

/* ---- the machine's time */
#if defined(__arm__)
/* SysTick counts down, a tick for each 50 ns of the emulated board. */
#define CONTROL (*(volatile uint32_t *)0xe000e010)
#define RELOAD (*(volatile uint32_t *)0xe000e014)
#define CURRENT (*(volatile uint32_t *)0xe000e018)
static void begin(void)
{
    CONTROL = 0;
    RELOAD = 0xffffff;
    CURRENT = 0;
    CONTROL = 5;
}
static uint32_t instructions(void) { return (0xffffff - CURRENT) * 50; }
#define STACK_POINTER(at) __asm__ volatile("mov %0, sp" : "=r"(at))
#else
static uint32_t from;
static uint32_t retired(void)
{
    uint32_t n;
    __asm__ volatile(".option push\n.option arch, +zicsr\nrdinstret %0\n.option pop" : "=r"(n));
    return n;
}
static void begin(void) { from = retired(); }
static uint32_t instructions(void) { return retired() - from; }
#define STACK_POINTER(at) __asm__ volatile("mv %0, sp" : "=r"(at))
#endif

/* ---- the original (original.rs) */
struct timing;
struct packet;
extern const struct timing ORIGINAL_VGA;
extern const size_t ORIGINAL_PACKET_SIZE;
int32_t original_encode_row(int32_t, const uint8_t *, size_t, uint16_t *);
uint32_t original_encode_symbol(int32_t *, uint8_t);
uint32_t original_encode_pair(uint8_t, uint8_t, int32_t *);
uint8_t original_parity(const uint8_t *, size_t);
void original_clear(struct packet *);
void original_flat(const struct packet *, uint8_t *);
void original_set_audio(struct packet *, const int16_t (*)[2], size_t, int32_t *);
void original_set_clock(struct packet *, uint32_t, uint32_t);
void original_set_audio_info(struct packet *, uint32_t);
void original_set_avi(struct packet *, uint32_t, uint32_t, uint32_t, uint32_t, uint32_t, uint32_t, uint32_t);
void original_encode_island(const struct packet *, uint8_t, uint32_t *);
uint32_t original_sync_word(const struct timing *, _Bool, _Bool);
void original_sync_pulse(const struct timing *, _Bool, uint32_t *);
void original_sync_only(const struct timing *, _Bool, uint32_t *);
void original_init_line(const struct timing *, uint32_t *);
void original_island_line(const struct timing *, uint32_t *, uint8_t, const struct packet *);
void original_empty_line(const struct timing *, uint32_t *, uint8_t);
uint32_t original_advance(uint32_t, const struct timing *);
uint32_t original_state(uint32_t, const struct timing *);
uint32_t original_row(uint32_t, const struct timing *, uint32_t);

/* ---- what is said */
static void say(const char *text) { machine_write(text, strlen(text)); }

static void say_number(uint32_t n)
{
    char digits[11];
    size_t k = sizeof digits;
    digits[--k] = '|';
    do digits[--k] = (char)('0' + n % 10);
    while (n /= 10);
    machine_write(digits + k, sizeof digits - k);
}

static void say_tenths(uint32_t count, uint32_t units) { say_number((uint32_t)(((uint64_t)count * 10 + units / 2) / units)); }

/* ---- measuring. A call is made TIMES times, with i counting, and has PER units each. */
#define COUNTED(times, call)                                                                                                 \
    ({                                                                                                                       \
        begin();                                                                                                             \
        for (uint32_t i = 0; i < (times); i++) { call; }                                                                     \
        instructions();                                                                                                      \
    })

/* The bytes of stack below this function's that a call writes to: painted before it, looked for after it. */
enum { PAINTED = 8192, PAINT = 0xa5 };
#define REACHED(call)                                                                                                        \
    ({                                                                                                                       \
        volatile uint8_t *sp;                                                                                                \
        STACK_POINTER(sp);                                                                                                   \
        for (int k = 1; k <= PAINTED; k++) sp[-k] = PAINT;                                                                   \
        {                                                                                                                    \
            const uint32_t i = 1;                                                                                            \
            (void)i;                                                                                                         \
            call;                                                                                                            \
        }                                                                                                                    \
        int deep = PAINTED;                                                                                                  \
        while (deep > 0 && sp[-deep] == PAINT) deep--;                                                                       \
        (uint32_t)deep;                                                                                                      \
    })

#define BOTH(name, unit, times, per, ours, theirs)                                                                           \
    do {                                                                                                                     \
        say(name "|" unit "|");                                                                                              \
        say_tenths(COUNTED(times, ours), (times) * (per));                                                                   \
        say_tenths(COUNTED(times, theirs), (times) * (per));                                                                 \
        say_number(REACHED(ours));                                                                                           \
        say("\n");                                                                                                           \
    } while (0)

#define OURS(name, unit, times, per, ours)                                                                                   \
    do {                                                                                                                     \
        say(name "|" unit "|");                                                                                              \
        say_tenths(COUNTED(times, ours), (times) * (per));                                                                   \
        say("0|");                                                                                                           \
        say_number(REACHED(ours));                                                                                           \
        say("\n");                                                                                                           \
    } while (0)

/* ---- inputs, both sides' the same */
static uint8_t bytes[4096], smooth[4096], back[4096], packet[36], flat[36];
static uint16_t symbols[4096], other[4096];
static uint32_t words[56], theirs[56], packet_room[16];
static int16_t frames[4][2];
static volatile uint32_t sink;
static int same = 1;

static uint32_t any(void)
{
    static uint64_t state = UINT64_C(0x2f6c1db8a07e4935);
    state ^= state >> 12;
    state ^= state << 25;
    state ^= state >> 27;
    return (uint32_t)((state * UINT64_C(0x2545f4914f6cdd1d)) >> 32);
}

static void agree(const void *a, const void *b, size_t n) { same &= memcmp(a, b, n) == 0; }

/* Both sides once over everything that is measured, and their outputs compared. */
static void hold_together(chaffrail_timing vga, struct packet *p)
{
    const struct timing *t = &ORIGINAL_VGA;
    int32_t d = chaffrail_encode_row(0, bytes, 4096, (uint8_t *)symbols, 8192).carry, e = original_encode_row(0, bytes, 4096, other);
    same &= d == e;
    agree(symbols, other, sizeof symbols);
    for (int i = 0; i < 256; i++) {
        e = 1;
        chaffrail_answer one = chaffrail_encode_symbol(1, (uint8_t)i);
        same &= one.value == original_encode_symbol(&e, (uint8_t)i) && one.carry == e;
        one = chaffrail_encode_pair_discrepancy((uint8_t)i, bytes[i]);
        same &= one.value == original_encode_pair((uint8_t)i, bytes[i], &e) && one.carry == e;
        same &= chaffrail_parity(bytes + i, 7).value == original_parity(bytes + i, 7);
        same &= (uint32_t)chaffrail_counter_advance((uint32_t)i, vga).carry == original_advance((uint32_t)i, t);
        same &= chaffrail_counter_state((uint32_t)i, vga).value == original_state((uint32_t)i, t);
        same &= chaffrail_counter_row((uint32_t)i, vga, 2).value == original_row((uint32_t)i, t, 2);
    }
    for (size_t n = 0; n <= 4; n++) {
        e = 3;
        original_clear(p);
        original_set_audio(p, frames, n, &e);
        same &= chaffrail_set_audio(packet, 36, (uint8_t *)frames, 4 * n, 3).carry == e;
        original_flat(p, flat);
        agree(packet, flat, 36);
    }
    original_clear(p);
    original_set_clock(p, 25200, 6144);
    original_flat(p, flat);
    chaffrail_set_audio_clock_regeneration(packet, 36, 25200, 6144);
    agree(packet, flat, 36);
    original_set_audio_info(p, 44100);
    original_flat(p, flat);
    chaffrail_set_audio_info_frame(packet, 36, 44100);
    agree(packet, flat, 36);
    original_set_avi(p, 1, 2, 3, 1, 9, 2, 2);
    original_flat(p, flat);
    chaffrail_set_avi_info_frame(packet, 36, 1, 2, 3, 1, 9, 2, 2);
    agree(packet, flat, 36);
    original_encode_island(p, 2, theirs);
    chaffrail_encode_island(2, packet, 36, (uint8_t *)words, 144);
    agree(words, theirs, 144);
    same &= chaffrail_tmds3_for_sync(vga, 1, 0).value == original_sync_word(t, 1, 0);
    original_sync_pulse(t, 1, theirs);
    chaffrail_make_sync_pulse(vga, 1, (uint8_t *)words, 60);
    agree(words, theirs, 60);
    original_sync_only(t, 0, theirs);
    chaffrail_make_sync_line_only(vga, 0, (uint8_t *)words, 44);
    agree(words, theirs, 44);
    original_init_line(t, theirs);
    original_island_line(t, theirs, 3, p);
    chaffrail_init_data_island(vga, (uint8_t *)words, 224);
    chaffrail_encode_data_island(vga, (uint8_t *)words, 224, 3, packet, 36);
    agree(words, theirs, 224);
    original_empty_line(t, theirs, 1);
    chaffrail_encode_data_island_empty(vga, (uint8_t *)words, 224, 1);
    agree(words, theirs, 224);
}

static void rows(void)
{
    int32_t d = 0, e = 0;
    uint8_t *wire = (uint8_t *)symbols;
    BOTH("rows of 4,096 random bytes", "byte", 20, 4096, d = chaffrail_encode_row(d, bytes, 4096, wire, 8192).carry, e = original_encode_row(e, bytes, 4096, other));
    BOTH("rows of 640 random bytes", "byte", 100, 640, d = chaffrail_encode_row(d, bytes + i, 640, wire, 1280).carry, e = original_encode_row(e, bytes + i, 640, other));
    BOTH("rows of 4,096 smooth bytes", "byte", 20, 4096, d = chaffrail_encode_row(d, smooth, 4096, wire, 8192).carry, e = original_encode_row(e, smooth, 4096, other));
    BOTH("a row of no bytes", "call", 1000, 1, d = chaffrail_encode_row(d, bytes, 0, wire, 0).carry, e = original_encode_row(e, bytes, 0, other));
    BOTH("a row of 16 bytes", "call", 1000, 1, d = chaffrail_encode_row(d, bytes + i, 16, wire, 32).carry, e = original_encode_row(e, bytes + i, 16, other));
    chaffrail_encode_row(0, bytes, 4096, wire, 8192);
    BOTH("reading rows of 4,096 (beside the original's encoder)", "symbol", 20, 4096, sink = chaffrail_read_row(wire, 8192, back, 4096).refusal, e = original_encode_row(0, bytes, 4096, other));
    BOTH("one symbol a call", "symbol", 4000, 1, d = chaffrail_encode_symbol(d, bytes[i]).carry, sink = original_encode_symbol(&e, bytes[i]));
    BOTH("one pair a call", "pair", 4000, 1, d = chaffrail_encode_pair_discrepancy(bytes[i], bytes[i + 1]).carry, sink = original_encode_pair(bytes[i], bytes[i + 1], &e));
}

static void packets(struct packet *p)
{
    static const uint32_t rates[4] = {32000, 44100, 48000, 96000};
    int32_t count = 0, other_count = 0;
    BOTH("parity of 7 bytes", "block", 4000, 1, sink = chaffrail_parity(bytes + i, 7).value, sink = original_parity(bytes + i, 7));
    BOTH("audio packet, 1 frame", "packet", 1000, 1, count = chaffrail_set_audio(packet, 36, (uint8_t *)frames, 4, count).carry, original_set_audio(p, frames, 1, &other_count));
    BOTH("audio packet, 2 frames", "packet", 1000, 1, count = chaffrail_set_audio(packet, 36, (uint8_t *)frames, 8, count).carry, original_set_audio(p, frames, 2, &other_count));
    BOTH("audio packet, 4 frames", "packet", 1000, 1, count = chaffrail_set_audio(packet, 36, (uint8_t *)frames, 16, count).carry, original_set_audio(p, frames, 4, &other_count));
    BOTH("clock packet", "packet", 1000, 1, sink = chaffrail_set_audio_clock_regeneration(packet, 36, 25200 + i, 6144).refusal, original_set_clock(p, 25200 + i, 6144));
    BOTH("audio info", "packet", 1000, 1, sink = chaffrail_set_audio_info_frame(packet, 36, rates[i % 4]).refusal, original_set_audio_info(p, rates[i % 4]));
    BOTH("AVI info from numbers", "packet", 1000, 1, sink = chaffrail_set_avi_info_frame(packet, 36, i % 2, 2, 3, 1, 8 + i % 4, 2, 2).refusal, original_set_avi(p, i % 2, 2, 3, 1, 8 + i % 4, 2, 2));
}

static void islands(struct packet *p)
{
    uint8_t *wire = (uint8_t *)words;
    chaffrail_set_avi_info_frame(packet, 36, 1, 2, 3, 1, 9, 2, 2);
    BOTH("island", "island", 1000, 1, sink = chaffrail_encode_island(i % 4, packet, 36, wire, 144).refusal, original_encode_island(p, i % 4, theirs));
    chaffrail_encode_island(2, packet, 36, wire, 144);
    OURS("reading an island", "island", 1000, 1, sink = chaffrail_read_island(wire, 144, back, 36).refusal);
    words[35] ^= 1;
    OURS("refusing an island whose last guard is wrong", "island", 1000, 1, sink = chaffrail_read_island(wire, 144, back, 36).refusal);
}

static void lines(chaffrail_timing vga, struct packet *p)
{
    const struct timing *t = &ORIGINAL_VGA;
    uint8_t *wire = (uint8_t *)words;
    uint32_t counter = 0, in_place = 0;
    BOTH("sync word", "word", 1000, 1, sink = chaffrail_tmds3_for_sync(vga, i & 1, i & 2).value, sink = original_sync_word(t, i & 1, i & 2));
    BOTH("sync pulse", "line", 1000, 1, sink = chaffrail_make_sync_pulse(vga, i & 1, wire, 60).refusal, original_sync_pulse(t, i & 1, theirs));
    BOTH("sync-only line", "line", 1000, 1, sink = chaffrail_make_sync_line_only(vga, i & 1, wire, 44).refusal, original_sync_only(t, i & 1, theirs));
    BOTH("island line begun", "line", 1000, 1, sink = chaffrail_init_data_island(vga, wire, 224).refusal, original_init_line(t, theirs));
    BOTH("island line with a packet", "line", 1000, 1, sink = chaffrail_encode_data_island(vga, wire, 224, i % 4, packet, 36).refusal, original_island_line(t, theirs, i % 4, p));
    BOTH("island line without one", "line", 1000, 1, sink = chaffrail_encode_data_island_empty(vga, wire, 224, i % 4).refusal, original_empty_line(t, theirs, i % 4));
    BOTH("counter advanced", "line", 1000, 1, counter = (uint32_t)chaffrail_counter_advance(counter, vga).carry, counter = original_advance(counter, t));
    BOTH("counter advanced in place", "line", 1000, 1, sink = chaffrail_counter_advance_in_place((uint8_t *)&in_place, 4, vga).refusal, counter = original_advance(counter, t));
    BOTH("line state", "line", 1000, 1, sink = chaffrail_counter_state(i % 525, vga).value, sink = original_state(i % 525, t));
    BOTH("row of a line", "line", 1000, 1, sink = chaffrail_counter_row(i % 525, vga, 2).value, sink = original_row(i % 525, t, 2));
}

int main(void)
{
    chaffrail_timing vga = chaffrail_vga_timing();
    struct packet *p = (struct packet *)packet_room;
    for (int i = 0; i < 4096; i++) {
        bytes[i] = (uint8_t)any();
        smooth[i] = (uint8_t)(i / 24 + (int)(any() % 3));
    }
    for (int i = 0; i < 8; i++) frames[i / 2][i % 2] = (int16_t)any();
    hold_together(vga, p);
    if (!same || ORIGINAL_PACKET_SIZE > sizeof packet_room) {
        say("the two sides differ\n");
        return 1;
    }
    OURS("(the driver's loop)", "turn", 1000, 1, __asm__ volatile(""));
    rows();
    packets(p);
    islands(p);
    lines(vga, p);
    return 0;
}
