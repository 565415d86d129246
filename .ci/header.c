/* Makes each call with fields that all differ, and reads back from the steps how the station read them; then has each answer told. */
#include "vk_c.h"
#include <stdio.h>
#include <string.h>

enum { PROCESSES = 13, TICKS = 300 };

static vk_station station = VK_NONE;
static int failed;

static void want(int holds, const char *what) {
    if (!holds) failed = 1, printf("header: not so: %s\n", what);
}

static void put_hex(char *text, const uint8_t *bytes, size_t len) {
    text += strlen(text);
    for (size_t at = 0; at < len; at++) text += sprintf(text, "%02x", bytes[at]);
}

/* Process 1.KIND makes this call; the station's first step is to be the text, in which %m stands for the message and %b for the bytes. */
static void read_back(uint32_t kind, const char *form) {
    static const uint8_t bytes[] = { 0xa1, 0xb2, 0xc3 };
    vk_call call = { .kind = kind, .scope = kind == VK_GET_PID ? VK_REMOTE : VK_BOTH, .host = 4660, .local = 22136, .to_host = 9029,
                     .to_local = 26505, .logical = 287454020, .start = 1432778632, .dest = 16909060, .src = 84281096, .count = 151653132 };
    vk_answer answer = { 0 };
    char wanted[VK_STEP_BYTES] = "", text[VK_STEP_BYTES + 1] = "";
    size_t len = 0;
    for (int at = 0; at < VK_MESSAGE_BYTES; at++) call.message[at] = (uint8_t)(0x40 + at);
    sprintf(wanted, "call 1.%u ", (unsigned)kind);
    for (; *form; form++) {
        if (*form != '%') wanted[strlen(wanted)] = *form;
        else if (*++form == 'm') put_hex(wanted, call.message, VK_MESSAGE_BYTES);
        else put_hex(wanted, bytes, sizeof bytes);
    }
    want(vk_station_call(&station, 1, (uint16_t)kind, &call, bytes, sizeof bytes, &answer) == VK_OK, "a call");
    want(vk_station_step(&station, 0, (uint8_t *)text, VK_STEP_BYTES, &len) == VK_OK && len == strlen(text), "a step");
    if (strcmp(text, wanted)) failed = 1, printf("header: `%s` is read as `%s`\n", wanted, text);
}

static void read_calls(void) {
    read_back(VK_SEND, "send 4660.22136 %m");
    read_back(VK_RECEIVE, "receive");
    read_back(VK_RECEIVE_SEGMENT, "receivesegment 1432778632 151653132");
    read_back(VK_REPLY, "reply %m 4660.22136");
    read_back(VK_REPLY_SEGMENT, "replysegment %m 4660.22136 16909060 84281096 151653132");
    read_back(VK_FORWARD, "forward %m 4660.22136 9029.26505");
    read_back(VK_MOVE_TO, "moveto 4660.22136 16909060 84281096 151653132");
    read_back(VK_MOVE_FROM, "movefrom 4660.22136 16909060 84281096 151653132");
    read_back(VK_SET_PID, "setpid 287454020 4660.22136 both");
    read_back(VK_GET_PID, "getpid 287454020 remote");
    read_back(VK_LOAD, "load 1432778632 151653132");
    read_back(VK_STORE, "store 1432778632 %b");
    read_back(VK_EXIT, "exit");
}

static vk_answer made(uint16_t local, vk_call call, const char *bytes, size_t len) {
    vk_answer answer = { 0 };
    want(vk_station_call(&station, 1, local, &call, (const uint8_t *)bytes, len, &answer) == VK_OK, "a call");
    return answer;
}

static vk_answer collected(uint16_t local) {
    vk_answer answer = { 0 };
    want(vk_station_collect(&station, 1, local, &answer) == VK_OK, "a collect");
    return answer;
}

/* A Send of a segment of 300 bytes within the station, from 1.2 to 1.1, and what both are answered. */
static void exchange(void) {
    vk_call send = { .kind = VK_SEND, .host = 1, .local = 1, .message = { 1, 7, 8, [27] = 16, [30] = 1, [31] = 44 } };
    vk_call reply = { .kind = VK_REPLY, .host = 1, .local = 2, .message = { 0, 9, [31] = 10 } };
    vk_answer answer = made(1, (vk_call){ .kind = VK_RECEIVE_SEGMENT, .start = 0, .count = 512 }, "", 0);
    want(answer.kind == VK_BEGUN && !answer.why && !answer.count && !answer.now, "a call is begun");
    want(made(2, send, "", 0).kind == VK_BEGUN, "a Send is begun");
    want(vk_station_is_done(&station, 1, 1) == 1 && vk_station_is_done(&station, 1, 2) == 0, "who is done");
    answer = collected(1);
    want(answer.kind == VK_RECEIVED_SEGMENT && answer.host == 1 && answer.local == 2 && answer.count == 300, "who sent, and how much");
    want(!memcmp(answer.message, send.message, VK_MESSAGE_BYTES), "the message that came");
    want(made(1, reply, "", 0).kind == VK_DONE, "a Reply is done");
    answer = collected(2);
    want(answer.kind == VK_REPLIED && !memcmp(answer.message, reply.message, VK_MESSAGE_BYTES) && !answer.host, "the reply");
    answer = collected(2);
    want(answer.kind == VK_REFUSED && answer.why == VK_WHY_NOT_YET, "nothing to collect");
}

static void other_answers(void) {
    uint8_t room[VK_FRAME_BYTES];
    size_t len = 0;
    uint16_t to = 0;
    vk_answer answer = { 0 };
    want(made(3, (vk_call){ .kind = VK_STORE, .start = 1000 }, "hello", 5).kind == VK_DONE, "a Store");
    answer = made(3, (vk_call){ .kind = VK_LOAD, .start = 999, .count = 7 }, "", 0);
    want(answer.kind == VK_LOADED && answer.count == 7, "a Load");
    want(vk_station_loaded(&station, 1, 3, 999, 7, room, sizeof room, &len) == VK_OK && len == 7, "what was loaded");
    want(!memcmp(room, "\0hello", 7), "its bytes");
    made(3, (vk_call){ .kind = VK_SET_PID, .logical = 70000, .host = 1, .local = 13, .scope = VK_LOCAL }, "", 0);
    answer = made(3, (vk_call){ .kind = VK_GET_PID, .logical = 70000, .scope = VK_LOCAL }, "", 0);
    want(answer.kind == VK_FOUND && answer.host == 1 && answer.local == 13, "whom a logical id stands for");
    want(made(3, (vk_call){ .kind = VK_GET_PID, .logical = 5, .scope = VK_REMOTE }, "", 0).kind == VK_BEGUN, "a question to all");
    want(vk_station_frame_count(&station) == 1, "its frame");
    want(vk_station_frame(&station, 0, room, sizeof room, &len, &to) == VK_OK && len >= 32 && len < 200, "its bytes");
    want(to == VK_EVERY_STATION, "whom it is for");
    want(vk_station_deliver(&station, room, 5, &answer) == VK_OK && answer.kind == VK_BAD, "bytes that are no frame");
    for (uint64_t now = 1; now <= TICKS; now++)
        want(vk_station_tick(&station, &answer) == VK_OK && answer.kind == VK_TICKED && answer.now == now, "a tick");
    want(vk_station_now(&station) == TICKS && vk_station_events(&station) == vk_station_number(&station), "what it counts");
}

int main(void) {
    vk_settings settings = { 5, 3, 20, 4 };
    vk_process processes[PROCESSES];
    vk_pool pools[] = { { 1, 64 } };
    for (uint16_t at = 0; at < PROCESSES; at++) processes[at] = (vk_process){ 1, (uint16_t)(at + 1), 4096 };
    want(vk_station_open(&station, &settings, processes, PROCESSES, 1) == VK_OK, "open");
    read_calls();
    want(vk_station_close(&station) == VK_OK && vk_station_close(&station) == VK_NO_STATION, "close");
    want(vk_station_open_with_pools(&station, &settings, processes, PROCESSES, pools, 1, 1) == VK_OK, "open with pools");
    exchange();
    other_answers();
    want(vk_station_close(&station) == VK_OK, "close");
    settings.pool = 65;
    want(vk_station_open(&station, &settings, processes, PROCESSES, 1) == VK_BAD_POOL, "a pool that is too large");
    return failed;
}
