/* forged SEED COUNT: so many events of two stations with fields and bytes of chance; some frames are passed on, some changed. Prints how
 * often each number and each kind of answer came. A fault shows by a sanitizer, by valgrind, or by a status that is not 0.
 */
#include "vk_c.h"
#include <stdio.h>
#include <stdlib.h>

enum { STATIONS = 2, KEPT = 16, NUMBERS = 18, KINDS = 13 };

static uint64_t state;
static vk_station stations[STATIONS] = { VK_NONE, VK_NONE };
static const vk_settings settings = { 3, 2, 6, 2 };
static const vk_process processes[] = { { 1, 1, 2000 }, { 1, 2, 100 }, { 2, 1, 3000 }, { 2, 2, 0 } };
static unsigned long numbers[NUMBERS], kinds[KINDS], frames;
/* Frames that were sent, and are delivered later, whole or not. */
static struct { size_t len; uint8_t bytes[VK_FRAME_BYTES]; } kept[KEPT];

static uint32_t chance(uint32_t below) {
    state ^= state << 13, state ^= state >> 7, state ^= state << 17;
    return (uint32_t)(state >> 20) % below;
}

static void fill(uint8_t *bytes, size_t len) {
    for (size_t i = 0; i < len; i++) bytes[i] = chance(256);
}

static vk_call any_call(uint16_t host) {
    vk_call c = { .kind = chance(40) ? 1 + chance(12) : chance(16), .scope = chance(4), .host = chance(20) ? 1 + chance(2) : chance(4),
                  .local = chance(20) ? 1 + chance(2) : 0, .to_host = host, .to_local = chance(4), .logical = chance(3),
                  .start = chance(3000), .dest = chance(200), .src = chance(200), .count = chance(1500) };
    for (int i = 0; i < VK_MESSAGE_BYTES; i++) c.message[i] = i == 0 || i == 30 || i == 31 ? chance(4) : 0;
    return c;
}

static uint32_t play_call(vk_station *s, uint16_t host, uint16_t local, vk_answer *a) {
    uint8_t bytes[VK_DATA_BYTES + 8];
    size_t len = 0;
    vk_call c = any_call(host);
    fill(bytes, sizeof bytes);
    uint32_t number = vk_station_call(s, host, local, &c, bytes, chance(20) ? chance(VK_DATA_BYTES + 1) : sizeof bytes, a);
    if (number == VK_OK && a->kind == VK_LOADED) {
        uint32_t told = vk_station_loaded(s, host, local, c.start, c.count, bytes, sizeof bytes, &len);
        if (told != VK_OK || len != a->count) exit(3);
    }
    return number;
}

static uint32_t play_delivery(vk_station *s, vk_answer *a) {
    uint32_t k = chance(KEPT);
    if (chance(3) == 0 && kept[k].len > 0) kept[k].bytes[chance(kept[k].len)] ^= 1 << chance(8);
    return vk_station_deliver(s, kept[k].bytes, chance(8) ? kept[k].len : chance(VK_FRAME_BYTES + 1), a);
}

/* Keeps frames of the last event, where there is room for them. */
static void keep_frames(vk_station *s) {
    for (uint32_t i = 0; i < vk_station_frame_count(s); i++) {
        uint32_t k = chance(KEPT);
        size_t room = chance(4) ? VK_FRAME_BYTES : chance(100);
        uint16_t to;
        if (vk_station_frame(s, i, kept[k].bytes, room, &kept[k].len, &to) == VK_OK) frames++;
    }
}

static void play(int at) {
    vk_station *s = &stations[at];
    vk_answer a = { 0 };
    uint16_t host = chance(9) ? (uint32_t)at + 1 : chance(65536), local = chance(9) ? 1 + chance(2) : chance(65536);
    uint32_t which = chance(10), number;
    if (which < 4) number = play_call(s, host, local, &a);
    else if (which < 6) number = vk_station_collect(s, host, local, &a);
    else if (which < 7) number = vk_station_tick(s, &a);
    else number = play_delivery(s, &a);
    numbers[number]++;
    if (number == VK_OK) kinds[a.kind]++, keep_frames(s);
    if (chance(150) == 0) {
        vk_station_close(s);
        numbers[vk_station_open(s, &settings, processes, 4, at + 1)]++;
    }
}

int main(int argc, char **argv) {
    state = (argc > 1 ? strtoull(argv[1], 0, 10) : 1) * 0x9e3779b97f4a7c15u + 1;
    long count = argc > 2 ? atol(argv[2]) : 10000;
    for (int at = 0; at < STATIONS; at++)
        if (vk_station_open(&stations[at], &settings, processes, 4, at + 1)) return 1;
    for (long n = 0; n < count; n++) play(chance(STATIONS));
    printf("numbers");
    for (int i = 0; i < NUMBERS; i++) printf(" %lu", numbers[i]);
    printf("\nkinds");
    for (int i = 0; i < KINDS; i++) printf(" %lu", kinds[i]);
    printf("\n%lu frames\n", frames);
    for (int at = 0; at < STATIONS; at++) vk_station_close(&stations[at]);
}
