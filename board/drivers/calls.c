/* Numbers, lent buffers and the record of each call. */
#include "calls.h"
#include "machine.h"
#include <string.h>

uint32_t any(void)
{
    static uint64_t state = UINT64_C(0x6b8f3c25d41e970b);
    state ^= state >> 12;
    state ^= state << 25;
    state ^= state >> 27;
    return (uint32_t)((state * UINT64_C(0x2545f4914f6cdd1d)) >> 32);
}

uint32_t below(uint32_t n) { return (uint32_t)(((uint64_t)any() * n) >> 32); }

int once_in(uint32_t n) { return below(n) == 0; }

/* ---- what is written */
static char text[1 << 16];
static size_t text_len;

static void put(char c)
{
    if (text_len == sizeof text) {
        machine_write(text, text_len);
        text_len = 0;
    }
    text[text_len++] = c;
}

static void put_text(const char *s)
{
    while (*s) put(*s++);
}

static void put_hex(uint32_t number, int digits)
{
    while (digits-- > 0) put("0123456789abcdef"[number >> (4 * digits) & 15]);
}

static void put_numbers(const char *name, uint32_t a, uint32_t b, uint32_t c, uint32_t d)
{
    const uint32_t numbers[4] = {a, b, c, d};
    put_text(name);
    for (int i = 0; i < 4; i++) {
        put(' ');
        put_hex(numbers[i], 8);
    }
}

void noted(const char *name, uint32_t a, uint32_t b, uint32_t c, uint32_t d)
{
    put_numbers(name, a, b, c, d);
    put('\n');
}

/* ---- buffers */
static size_t held(const struct lent *b) { return b->len < b->holds ? b->len : b->holds; }

/* Everything from the margin before what is lent to the margin behind it. */
static size_t watched(const struct lent *b) { return (size_t)(b->bytes - b->room) + held(b) + MARGIN / 2; }

void lend(struct lent *b, size_t len)
{
    b->len = len;
    b->bytes = b->room + MARGIN / 2 + below(4);
    for (size_t i = 0, n = watched(b); i < n; i++) b->room[i] = (uint8_t)any();
}

size_t length_near(size_t right)
{
    const size_t half = (size_t)1 << (8 * sizeof(size_t) - 1);
    if (!once_in(16)) return right;
    switch (below(7)) {
    case 0: return 0;
    case 1: return right + 1;
    case 2: return right ? right - 1 : 1;
    case 3: return 2 * right;
    case 4: return half + right;
    case 5: return half + right / 2;
    default: return (size_t)0 - 1 - below(4);
    }
}

/* ---- calls */
static const char *const names[] = {
#define ENTRY(name, refusals) "chaffrail_" #name,
    ENTRIES(ENTRY)
#undef ENTRY
};
static const uint32_t refusals_of[] = {
#define ENTRY(name, refusals) refusals,
    ENTRIES(ENTRY)
#undef ENTRY
};
enum { ENTRY_COUNT = sizeof names / sizeof *names };
static uint32_t calls[ENTRY_COUNT], refusals_met[ENTRY_COUNT];
static int wrong;

void remember(struct lent *written, struct lent *read)
{
    if (written) memcpy(written->before, written->room, watched(written));
    if (read) memcpy(read->before, read->room, watched(read));
}

static void must(int right, const char *what, enum entry entry)
{
    if (right) return;
    wrong = 1;
    put_text("WRONG: ");
    put_text(names[entry]);
    put_text(what);
}

static int same(const struct lent *b) { return memcmp(b->room, b->before, watched(b)) == 0; }

static int margins_same(const struct lent *b)
{
    size_t begin = (size_t)(b->bytes - b->room), end = begin + held(b);
    return memcmp(b->room, b->before, begin) == 0 && memcmp(b->room + end, b->before + end, MARGIN / 2) == 0;
}

void answered(enum entry entry, chaffrail_answer a, struct lent *written, struct lent *read)
{
    calls[entry]++;
    if (a.refusal) refusals_met[entry] |= a.refusal < 32 ? BIT(a.refusal) : 1;
    put_numbers(names[entry], a.refusal, a.place, a.value, (uint32_t)a.carry);
    if (written && !a.refusal) {
        put(' ');
        for (size_t i = 0, n = held(written); i < n; i++) put_hex(written->bytes[i], 2);
    }
    put('\n');
    if (written) must(a.refusal ? same(written) : margins_same(written), " wrote where it must not\n", entry);
    if (read) must(same(read), " changed what it was lent to read\n", entry);
}

int summed_up(void)
{
    for (int e = 0; e < ENTRY_COUNT; e++) {
        put_text("called ");
        noted(names[e], calls[e], refusals_met[e], 0, 0);
        must(refusals_met[e] == refusals_of[e], " has other refusals than the header says\n", (enum entry)e);
    }
    machine_write(text, text_len);
    return wrong;
}
