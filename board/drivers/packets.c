/* Parity, TERC4, packets and islands. */
#include "calls.h"
#include <string.h>

LENT(block, 4200);
LENT(packet, 80);
LENT(samples, 40);
LENT(words, 320);

static void parity_of(size_t len)
{
    remember(0, &block);
    answered(ENTRY_parity, chaffrail_parity(block.bytes, len), 0, &block);
}

static void parities(void)
{
    lend(&block, 0);
    parity_of(0);
    for (uint32_t p = 0; p < 65536; p++) { /* every block of two bytes, and every one of one byte among them */
        lend(&block, p < 256 ? 1 : 2);
        block.bytes[0] = (uint8_t)p;
        block.bytes[1] = (uint8_t)(p >> 8);
        parity_of(block.len);
    }
    for (uint32_t i = 0; i < 10000; i++) {
        lend(&block, once_in(100) ? below(4200) : below(40));
        parity_of(block.len);
    }
}

static void terc4(void)
{
    for (uint32_t n = 0; n < 256; n++) answered(ENTRY_terc4_symbol, chaffrail_terc4_symbol((uint8_t)n), 0, 0);
    for (uint32_t s = 0; s < 65536; s++) answered(ENTRY_read_terc4, chaffrail_read_terc4((uint16_t)s), 0, 0);
}

static void audio(size_t packet_len, size_t samples_len, int32_t count)
{
    lend(&packet, packet_len);
    lend(&samples, samples_len);
    remember(&packet, &samples);
    answered(ENTRY_set_audio, chaffrail_set_audio(packet.bytes, packet.len, samples.bytes, samples.len, count), &packet, &samples);
}

static void audio_packets(void)
{
    for (size_t len = 0; len <= 20; len++)
        for (int32_t count = -2; count <= 193; count++) audio(36, len, count);
    static const int32_t far[] = {-1, 192, 256, 65536, INT32_MAX, INT32_MIN};
    for (uint32_t i = 0; i < 10000; i++) {
        size_t frames = below(5), packet_len = length_near(36), samples_len = length_near(4 * frames);
        audio(packet_len, samples_len, once_in(16) ? ONE_OF(far) : (int32_t)below(192));
    }
}

static void clock(size_t packet_len, uint32_t cts, uint32_t n)
{
    lend(&packet, packet_len);
    remember(&packet, 0);
    answered(ENTRY_set_audio_clock_regeneration, chaffrail_set_audio_clock_regeneration(packet.bytes, packet.len, cts, n), &packet, 0);
}

static void clock_packets(void)
{
    static const uint32_t edges[] = {0, 1, 0xff, 0x100, 0xffff, 0x10000, 0xfffff, 0x100000, 0x100001, 0x80000000, 0xffffffff};
    for (uint32_t i = 0; i < 121; i++) clock(36, edges[i % 11], edges[i / 11]);
    for (uint32_t i = 0; i < 10000; i++) {
        uint32_t cts = below(1 << 20), n = below(1 << 20);
        clock(length_near(36), cts, n);
    }
}

static void audio_info(size_t packet_len, uint32_t rate)
{
    lend(&packet, packet_len);
    remember(&packet, 0);
    answered(ENTRY_set_audio_info_frame, chaffrail_set_audio_info_frame(packet.bytes, packet.len, rate), &packet, 0);
}

static void audio_infos(void)
{
    static const uint32_t rates[] = {0, 1, 32000, 44099, 44100, 44101, 47999, 48000, 48001, 96000, 0x80000000, 0xffffffff};
    for (uint32_t i = 0; i < 12; i++) audio_info(36, rates[i]);
    for (uint32_t i = 0; i < 4000; i++) {
        uint32_t rate = once_in(4) ? any() : ONE_OF(rates);
        audio_info(length_near(36), rate);
    }
}

/* s, y, c, m, r, q, v */
static void avi(size_t packet_len, const uint32_t f[7])
{
    lend(&packet, packet_len);
    remember(&packet, 0);
    answered(ENTRY_set_avi_info_frame, chaffrail_set_avi_info_frame(packet.bytes, packet.len, f[0], f[1], f[2], f[3], f[4], f[5], f[6]), &packet, 0);
}

static void avi_infos(void)
{
    static const uint32_t aspects[] = {0, 8, 9, 10, 11}, counts[7] = {3, 3, 4, 3, 5, 3, 2};
    static const uint32_t unlisted[] = {0, 1, 2, 3, 4, 7, 8, 11, 12, 255, 256, 0x80000000, 0xffffffff};
    for (uint32_t i = 0; i < 3 * 3 * 4 * 3 * 5 * 3 * 2; i++) { /* every frame of listed numbers */
        uint32_t f[7], rest = i;
        for (int k = 0; k < 7; k++) {
            f[k] = rest % counts[k];
            rest /= counts[k];
        }
        f[4] = aspects[f[4]];
        f[6]++;
        avi(36, f);
    }
    for (int k = 0; k < 7; k++) /* one field at a time out of the list, and two */
        for (uint32_t i = 0; i < 13 * 13; i++) {
            uint32_t f[7] = {0, 1, 2, 1, 8, 2, 1};
            f[k] = unlisted[i % 13];
            if (i >= 13) f[(k + 1) % 7] = unlisted[i / 13];
            avi(36, f);
        }
    for (uint32_t i = 0; i < 2000; i++) {
        const uint32_t f[7] = {below(3), 1, 3, 2, 9, 0, 2};
        avi(length_near(36), f);
    }
}

void packets(void)
{
    parities();
    terc4();
    audio_packets();
    clock_packets();
    audio_infos();
    avi_infos();
}

/* ---- islands */
static void island_written(uint8_t hv, size_t packet_len, size_t words_len)
{
    lend(&packet, packet_len);
    lend(&words, words_len);
    remember(&words, &packet);
    answered(ENTRY_encode_island, chaffrail_encode_island(hv, packet.bytes, packet.len, words.bytes, words.len), &words, &packet);
}

/* Random bytes with right parity. */
static void right_packet(void)
{
    lend(&packet, 36);
    uint8_t *p = packet.bytes;
    p[3] = (uint8_t)chaffrail_parity(p, 3).value;
    for (int s = 4; s < 36; s += 8) p[s + 7] = (uint8_t)chaffrail_parity(p + s, 7).value;
}

static void island_on_the_wire(uint8_t hv)
{
    lend(&words, 144);
    chaffrail_encode_island(hv, packet.bytes, 36, words.bytes, 144);
}

static void island_read(size_t words_len, size_t packet_len)
{
    words.len = words_len;
    lend(&packet, packet_len);
    remember(&packet, &words);
    answered(ENTRY_read_island, chaffrail_read_island(words.bytes, words.len, packet.bytes, packet.len), &packet, &words);
}

/* Another symbol on one lane of a word. */
static void lane_changed(uint32_t word, uint32_t lane, uint32_t symbol)
{
    uint8_t *w = words.bytes + 4 * word;
    uint32_t old = w[0] | (uint32_t)w[1] << 8 | (uint32_t)w[2] << 16 | (uint32_t)w[3] << 24;
    uint32_t changed = (old & ~(UINT32_C(0x3ff) << 10 * lane)) | symbol << 10 * lane;
    for (int i = 0; i < 4; i++) w[i] = (uint8_t)(changed >> 8 * i);
}

static void islands_spoiled(void)
{
    for (uint32_t i = 0; i < 4 * 1152; i++) { /* one bit of the wire, at every place and in every sync pair */
        right_packet();
        island_on_the_wire((uint8_t)(i / 1152));
        words.bytes[i % 1152 / 8] ^= (uint8_t)(1u << i % 8);
        island_read(144, 36);
    }
    for (uint32_t i = 0; i < 4 * 288; i++) { /* one bit of the packet */
        right_packet();
        packet.bytes[i % 288 / 8] ^= (uint8_t)(1u << i % 8);
        island_on_the_wire((uint8_t)(i / 288));
        island_read(144, 36);
    }
    for (uint32_t i = 0; i < 36 * 3 * 16; i++) { /* every TERC4 symbol on every lane of every word */
        right_packet();
        island_on_the_wire((uint8_t)below(4));
        lane_changed(i % 36, i / 36 % 3, chaffrail_terc4_symbol((uint8_t)(i / 108)).value);
        island_read(144, 36);
    }
    for (uint32_t i = 0; i < 4000; i++) { /* several faults at once: the lowest number and place is told */
        right_packet();
        island_on_the_wire((uint8_t)below(4));
        for (uint32_t faults = 2 + below(3); faults > 0; faults--) {
            uint32_t word = below(36), lane = below(3);
            if (once_in(2)) {
                lane_changed(word, lane, below(1024));
            } else {
                uint32_t at = 4 * word + below(4);
                words.bytes[at] ^= (uint8_t)(1u << below(8));
            }
        }
        island_read(144, 36);
    }
}

void islands(void)
{
    for (uint32_t hv = 0; hv < 256; hv++) island_written((uint8_t)hv, 36, 144);
    for (uint32_t i = 0; i < 6000; i++) {
        size_t packet_len = length_near(36), words_len = length_near(144);
        island_written((uint8_t)below(5), packet_len, words_len);
    }
    for (uint32_t i = 0; i < 4000; i++) {
        right_packet();
        island_on_the_wire((uint8_t)below(4));
        size_t words_len = length_near(144);
        island_read(words_len, length_near(36));
    }
    islands_spoiled();
}
