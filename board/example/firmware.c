/* One line of a picture of 640 by 480 with sound in its island, as firmware for the board would put it together. Here the words end in a buffer and
 * are read back; on an RP2350 a channel of the DMA feeds that buffer to the serial expander (HSTX). Start-up is machine/board.c. */
#include "chaffrail.h"
#include "machine.h"
#include <string.h>

enum { WIDTH = 640, LANES = 3, ISLAND_LINE = 56, ISLAND_AT = 5, LINE = ISLAND_LINE + 1 + WIDTH };

static uint8_t pixels[LANES][WIDTH], symbols[LANES][2 * WIDTH], back[WIDTH]; /* lane 0 is blue, 1 green, 2 red */
static uint32_t expander[LINE];

static void say(const char *text) { machine_write(text, strlen(text)); }

static void say_number(uint32_t n)
{
    char digits[10];
    size_t k = sizeof digits;
    do digits[--k] = (char)('0' + n % 10);
    while (n /= 10);
    machine_write(digits + k, sizeof digits - k);
}

static void say_word(uint32_t word)
{
    char digits[9] = " ";
    for (int k = 0; k < 8; k++) digits[1 + k] = "0123456789abcdef"[word >> (28 - 4 * k) & 15];
    machine_write(digits, sizeof digits);
}

/* A refused call has written nothing, so the line as it was may be sent again. */
static int fine(const char *what, chaffrail_answer a)
{
    if (a.refusal == CHAFFRAIL_FINE) return 1;
    say(what);
    say(" is refused with ");
    say_number(a.refusal);
    say(" at ");
    say_number(a.place);
    say("\n");
    return 0;
}

/* Blanking with a packet: the words in front of the pixels. */
static int blanking(chaffrail_timing t, uint8_t state, const uint8_t packet[36])
{
    uint8_t *words = (uint8_t *)expander; /* the board has the low byte first, as the words cross */
    return fine("the line's commands", chaffrail_init_data_island(t, words, 4 * ISLAND_LINE)) &&
           fine("the island", chaffrail_encode_data_island(t, words, 4 * ISLAND_LINE, state, packet, 36));
}

/* The pixels: a lane begins each line at discrepancy 0, since control symbols come before it. */
static int row_of_pixels(void)
{
    for (int lane = 0; lane < LANES; lane++)
        if (!fine("a lane", chaffrail_encode_row(0, pixels[lane], WIDTH, symbols[lane], 2 * WIDTH))) return 0;
    chaffrail_answer command = chaffrail_hstx_cmd_raw(WIDTH);
    if (!fine("the command", command)) return 0;
    uint32_t *words = expander + ISLAND_LINE;
    *words++ = command.value;
    for (int x = 0; x < WIDTH; x++) {
        uint32_t word = 0;
        for (int lane = LANES - 1; lane >= 0; lane--) word = word << 10 | symbols[lane][2 * x] | (uint32_t)symbols[lane][2 * x + 1] << 8;
        *words++ = word;
    }
    return 1;
}

/* What a monitor would make of it. */
static int reads_back(const uint8_t packet[36])
{
    uint8_t found[36];
    if (!fine("reading the island", chaffrail_read_island((uint8_t *)(expander + ISLAND_AT), 144, found, 36))) return 0;
    if (memcmp(found, packet, 36) != 0) return 0;
    for (int lane = 0; lane < LANES; lane++) {
        if (!fine("reading a lane", chaffrail_read_row(symbols[lane], 2 * WIDTH, back, WIDTH))) return 0;
        if (memcmp(back, pixels[lane], WIDTH) != 0) return 0;
    }
    return 1;
}

int main(void)
{
    static const uint8_t two_frames[8] = {0x34, 0x12, 0xcc, 0xed, 0x00, 0x40, 0x00, 0xc0}; /* left, right; left, right */
    const chaffrail_timing t = chaffrail_vga_timing();
    const uint32_t counter = 45; /* the first line that shows pixels */
    uint8_t packet[36];
    for (int lane = 0; lane < LANES; lane++)
        for (int x = 0; x < WIDTH; x++) pixels[lane][x] = (uint8_t)(x * (lane + 1) / 4);

    chaffrail_answer sound = chaffrail_set_audio(packet, sizeof packet, two_frames, sizeof two_frames, 0);
    chaffrail_answer state = chaffrail_counter_state(counter, t);
    if (!fine("the sound", sound) || !fine("the line counter", state)) return 1;
    if (!blanking(t, (uint8_t)state.value, packet) || !row_of_pixels() || !reads_back(packet)) return 1;

    say("line ");
    say_number(counter);
    say(": ");
    say_number(LINE);
    say(" words for the expander, read back right; ");
    say_number((uint32_t)sound.carry);
    say(" frames to the next block\n");
    for (int i = 0; i < ISLAND_LINE + 5; i++) {
        say_word(expander[i]);
        if (i % 8 == 7 || i == ISLAND_LINE + 4) say("\n");
    }
    return 0;
}
