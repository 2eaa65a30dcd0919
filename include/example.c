#include "chaffrail.h"
#include <stdio.h>

int main(void)
{
    uint8_t row[2] = {0x00, 0x00}, symbols[4], back[2], packet[36], island[144], found[36];
    chaffrail_answer a = chaffrail_encode_row(0, row, sizeof row, symbols, sizeof symbols);
    printf("refusal %u, discrepancy %d, symbols %02x%02x %02x%02x\n", (unsigned)a.refusal, (int)a.carry, symbols[1], symbols[0], symbols[3], symbols[2]);
    a = chaffrail_read_row(symbols, sizeof symbols, back, sizeof back);
    printf("refusal %u, bytes %02x %02x\n", (unsigned)a.refusal, back[0], back[1]);
    a = chaffrail_set_audio_clock_regeneration(packet, sizeof packet, 25200, 6144);
    printf("refusal %u, header %02x %02x %02x %02x\n", (unsigned)a.refusal, packet[0], packet[1], packet[2], packet[3]);
    a = chaffrail_encode_island(2, packet, sizeof packet, island, sizeof island);
    printf("refusal %u, guard word %02x%02x%02x%02x\n", (unsigned)a.refusal, island[3], island[2], island[1], island[0]);
    a = chaffrail_read_island(island, sizeof island, found, sizeof found);
    printf("refusal %u, sync pair %u, header %02x\n", (unsigned)a.refusal, (unsigned)a.value, found[0]);
    a = chaffrail_counter_advance(524, chaffrail_vga_timing());
    printf("refusal %u, next line %u\n", (unsigned)a.refusal, (unsigned)a.carry);
    a = chaffrail_encode_symbol(5, 0x10);
    printf("refusal %u, discrepancy %d\n", (unsigned)a.refusal, (int)a.carry);
    return 0;
}
