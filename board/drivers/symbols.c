/* Symbols, pairs and rows. */
#include "calls.h"

static const int32_t far_discrepancies[] = {5, -5, 127, -128, 256, -256, INT32_MAX, INT32_MIN};

static int32_t any_discrepancy(void) { return once_in(16) ? ONE_OF(far_discrepancies) : (int32_t)below(9) - 4; }

void symbols(void)
{
    for (int32_t d = -6; d <= 6; d++)
        for (uint32_t byte = 0; byte < 256; byte++) answered(ENTRY_encode_symbol, chaffrail_encode_symbol(d, (uint8_t)byte), 0, 0);
    for (uint32_t i = 0; i < 8; i++) answered(ENTRY_encode_symbol, chaffrail_encode_symbol(far_discrepancies[i], (uint8_t)any()), 0, 0);

    for (uint32_t s = 0; s < 65536; s++) answered(ENTRY_read_symbol, chaffrail_read_symbol((uint16_t)s), 0, 0);

    for (uint32_t p = 0; p < 65536; p++) {
        uint8_t low = (uint8_t)p, high = (uint8_t)(p >> 8);
        answered(ENTRY_control_symbol, chaffrail_control_symbol(low, high), 0, 0);
        answered(ENTRY_encode_pair, chaffrail_encode_pair(low, high), 0, 0);
        answered(ENTRY_encode_pair_discrepancy, chaffrail_encode_pair_discrepancy(low, high), 0, 0);
    }
    for (uint32_t byte = 0; byte < 256; byte++) answered(ENTRY_encode_balanced_approx, chaffrail_encode_balanced_approx((uint8_t)byte), 0, 0);

    static const uint16_t edges[] = {0, 1, 0x1ff, 0x200, 0x3ff, 0x400, 0x401, 0x7ff, 0x8000, 0xffff};
    for (uint32_t i = 0; i < 100; i++) answered(ENTRY_join_symbols, chaffrail_join_symbols(edges[i % 10], edges[i / 10]), 0, 0);
    for (uint32_t i = 0; i < 20000; i++) {
        uint32_t both = any(); /* mostly of ten bits each */
        if (!once_in(8)) both &= 0x03ff03ff;
        answered(ENTRY_join_symbols, chaffrail_join_symbols((uint16_t)both, (uint16_t)(both >> 16)), 0, 0);
    }
}

/* ---- rows */
enum { LONGEST = 4096 };
LENT(bytes, LONGEST + 4);
LENT(wire, 2 * LONGEST + 8);

static void row_written(int32_t d, size_t bytes_len, size_t wire_len)
{
    lend(&bytes, bytes_len);
    lend(&wire, wire_len);
    remember(&wire, &bytes);
    answered(ENTRY_encode_row, chaffrail_encode_row(d, bytes.bytes, bytes.len, wire.bytes, wire.len), &wire, &bytes);
}

/* The symbols of a random row in `wire`. */
static void row_on_the_wire(size_t n)
{
    lend(&bytes, n);
    lend(&wire, 2 * n);
    chaffrail_encode_row((int32_t)below(9) - 4, bytes.bytes, n, wire.bytes, 2 * n);
}

static void row_read(size_t wire_len, size_t bytes_len)
{
    wire.len = wire_len;
    lend(&bytes, bytes_len);
    remember(&bytes, &wire);
    answered(ENTRY_read_row, chaffrail_read_row(wire.bytes, wire.len, bytes.bytes, bytes.len), &bytes, &wire);
}

static size_t any_row_length(void) { return once_in(64) ? below(LONGEST + 1) : below(80); }

void rows(void)
{
    static const size_t edges[] = {0, 1, 2, 3, 4, 5, 7, 8, 9, 15, 16, 17, LONGEST - 1, LONGEST, LONGEST + 1};
    for (uint32_t e = 0; e < sizeof edges / sizeof *edges; e++)
        for (int32_t d = -5; d <= 5; d++) row_written(d, edges[e], 2 * edges[e]);
    for (uint32_t i = 0; i < 6000; i++) {
        size_t n = any_row_length(), bytes_len = length_near(n), wire_len = length_near(2 * n);
        row_written(any_discrepancy(), bytes_len, wire_len);
    }
    for (size_t n = 0; n < 64; n++) { /* a length whose double wraps around to that of the symbols */
        size_t half = (size_t)1 << (8 * sizeof(size_t) - 1);
        row_written(0, half + n, 2 * n);
        row_on_the_wire(n);
        row_read(2 * n, half + n);
    }

    for (uint32_t s = 0; s < 65536; s++) { /* every symbol at its place among data symbols */
        row_on_the_wire(3);
        uint8_t *at = wire.bytes + 2 * (s % 3);
        at[0] = (uint8_t)s;
        at[1] = (uint8_t)(s >> 8);
        row_read(6, 3);
    }
    for (uint32_t e = 0; e < sizeof edges / sizeof *edges; e++) {
        row_on_the_wire(edges[e]);
        row_read(2 * edges[e], edges[e]);
    }
    for (uint32_t i = 0; i < 6000; i++) {
        size_t n = any_row_length();
        row_on_the_wire(n);
        for (uint32_t spoiled = n ? below(4) : 0; spoiled > 1; spoiled--) {
            uint32_t at = below((uint32_t)(2 * n));
            wire.bytes[at] ^= (uint8_t)(1u << below(8));
        }
        size_t wire_len = length_near(2 * n);
        row_read(wire_len, length_near(n));
    }
}
