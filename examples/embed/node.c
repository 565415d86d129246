#include "node.h"
#include <arpa/inet.h>
#include <signal.h>
#include <stdlib.h>
#include <string.h>
#include <sys/socket.h>
#include <sys/time.h>
#include <time.h>
#include <unistd.h>

enum { TICK_MICROS = 1000, HEADER_BYTES = 32, MOST_AT_ONCE = 65536, LOOK_EVERY = 16 };

static volatile sig_atomic_t stopped;

static void stop(int signal) {
    (void)signal;
    stopped = 1;
}

static void fail(const char *what, const char *why) {
    fprintf(stderr, "%s: %s\n", what, why);
    exit(1);
}

/* A number that the station answers but VK_OK is a fault of this program: it makes calls of its own process alone. */
static void must(uint32_t status, const char *what) {
    if (status != VK_OK) {
        fprintf(stderr, "%s: answered with number %u\n", what, status);
        exit(1);
    }
}

uint32_t word_at(const uint8_t *b) {
    return (uint32_t)b[0] << 24 | (uint32_t)b[1] << 16 | (uint32_t)b[2] << 8 | b[3];
}

void put_word(uint8_t *b, uint32_t word) {
    b[0] = word >> 24, b[1] = word >> 16, b[2] = word >> 8, b[3] = word;
}

uint64_t now_micros(void) {
    struct timespec t;
    clock_gettime(CLOCK_MONOTONIC, &t);
    return (uint64_t)t.tv_sec * 1000000 + t.tv_nsec / 1000;
}

/* ---- the text of what happened ---- */

static void log_bytes(struct node *n, const uint8_t *bytes, size_t len) {
    if (len == 0) fputs(" -", n->log);
    else fputc(' ', n->log);
    for (size_t i = 0; i < len; i++) fprintf(n->log, "%02x", bytes[i]);
}

static void log_message(struct node *n, const uint8_t *message) {
    size_t len = VK_MESSAGE_BYTES;
    while (len > 0 && message[len - 1] == 0) len--;
    log_bytes(n, message, len);
}

/* The calls that page servers and their clients make. */
static void log_call(struct node *n, const vk_call *c, const uint8_t *bytes, size_t len) {
    fprintf(n->log, "call %u.%u ", n->task.process.host, n->task.process.local);
    switch (c->kind) {
    case VK_SEND:
        fprintf(n->log, "send %u.%u", c->host, c->local);
        log_message(n, c->message);
        break;
    case VK_RECEIVE_SEGMENT: fprintf(n->log, "receivesegment %u %u", c->start, c->count); break;
    case VK_REPLY:
        fputs("reply", n->log);
        log_message(n, c->message);
        fprintf(n->log, " %u.%u", c->host, c->local);
        break;
    case VK_REPLY_SEGMENT:
        fputs("replysegment", n->log);
        log_message(n, c->message);
        fprintf(n->log, " %u.%u %u %u %u", c->host, c->local, c->dest, c->src, c->count);
        break;
    case VK_LOAD: fprintf(n->log, "load %u %u", c->start, c->count); break;
    case VK_STORE:
        fprintf(n->log, "store %u", c->start);
        log_bytes(n, bytes, len);
        break;
    default: fail("log", "a call that is not written");
    }
    fputc('\n', n->log);
}

static void log_head(struct node *n, const vk_process *processes, size_t count) {
    fprintf(n->log, "vkernel node 1\ntimes %u %u %u\n", n->settings.tries, n->settings.interval, n->settings.life);
    for (size_t i = 0; i < count; i++) fprintf(n->log, "process %u.%u %u\n", processes[i].host, processes[i].local, processes[i].size);
    fprintf(n->log, "station %u\n", n->task.process.host);
}

/* ---- frames and the clock ---- */

/* Something is on its way: the clock goes on, until nothing more can come of it. */
static void wake(struct node *n) {
    n->quiet = n->ticks + n->settings.tries * n->settings.interval + 2 * n->settings.life;
    if (n->next == 0) n->next = now_micros() + TICK_MICROS;
}

static void send_to_port(struct node *n, uint16_t port, const uint8_t *bytes, size_t len) {
    struct sockaddr_in to = { .sin_family = AF_INET, .sin_port = htons(port), .sin_addr = { htonl(INADDR_LOOPBACK) } };
    /* What is not sent is lost, as any frame may be. */
    sendto(n->socket, bytes, len, 0, (struct sockaddr *)&to, sizeof to);
}

/* Sends the frames of the last event. */
static void send_frames(struct node *n) {
    uint8_t frame[VK_FRAME_BYTES];
    size_t len;
    uint16_t to;
    for (uint32_t at = 0, count = vk_station_frame_count(&n->station); at < count; at++) {
        must(vk_station_frame(&n->station, at, frame, sizeof frame, &len, &to), "frame");
        for (unsigned i = 0; i < n->stations; i++)
            if (n->at[i].host != n->task.process.host && (to == n->at[i].host || to == VK_EVERY_STATION)) {
                send_to_port(n, n->at[i].port, frame, len);
                wake(n);
            }
    }
}

static void tick(struct node *n) {
    vk_answer a;
    must(vk_station_tick(&n->station, &a), "tick");
    n->ticks = a.now;
    if (n->log) fputs("tick\n", n->log);
    send_frames(n);
}

/* How much younger than others it may be. */
static uint32_t leap(const struct node *n) {
    return n->settings.interval < n->settings.life / 2 ? n->settings.interval : n->settings.life / 2;
}

/* The ticks that it takes to be nearly as old as others are, for which its frames would be too old. */
static void catch_up(struct node *n) {
    for (int i = 0; i < MOST_AT_ONCE && n->ticks + leap(n) < n->heard; i++) tick(n);
}

/* The ticks that are due. A server is in no hurry: it ticks at an eighth of the pace while it is older than all others, whose frames would
 * else be too old here. */
static void tick_when_due(struct node *n) {
    uint64_t now = now_micros();
    while (n->next != 0 && n->next <= now) {
        tick(n);
        int is_ahead = !n->task.is_client && n->ticks > n->heard + leap(n);
        n->next = n->ticks > n->quiet ? 0 : n->next + (is_ahead ? 8 : 1) * TICK_MICROS;
    }
}

static uint64_t long_at(const uint8_t *b) { return (uint64_t)word_at(b) << 32 | word_at(b + 4); }

/* Tells the other station the time, by a header without a packet. */
static void tell_time(struct node *n, uint16_t host, uint16_t port) {
    uint8_t h[HEADER_BYTES] = { 0x56, 0x4b, n->task.process.host >> 8, n->task.process.host, host >> 8, host };
    put_word(h + 6, n->ticks >> 32);
    put_word(h + 10, n->ticks);
    send_to_port(n, port, h, sizeof h);
}

/* Delivers a datagram of this length from the other station, unless a node drops it: it is no frame, or not for this station. */
static void deliver(struct node *n, const uint8_t *bytes, size_t len, uint16_t host, uint16_t port) {
    vk_answer a;
    if (len < HEADER_BYTES || len > VK_FRAME_BYTES || bytes[0] != 0x56 || bytes[1] != 0x4b) return;
    uint16_t source = bytes[2] << 8 | bytes[3], to = bytes[4] << 8 | bytes[5];
    uint64_t stamp = long_at(bytes + 6), number = long_at(bytes + 14);
    if (source != host || (to != n->task.process.host && to != VK_EVERY_STATION) || stamp >> 63 || number >= INT64_MAX) return;
    if (stamp > n->heard) n->heard = stamp;
    if (len == HEADER_BYTES) return;
    must(vk_station_deliver(&n->station, bytes, len, &a), "deliver");
    if (n->log) {
        fputs("frame", n->log);
        log_bytes(n, bytes, len);
        fputc('\n', n->log);
    }
    send_frames(n);
    wake(n);
    if (a.kind == VK_OLD) tell_time(n, host, port);
}

/* For how long a receive waits: for a tick, where the clock goes, else for ten seconds. (A receive that waits by itself takes half the
 * time of a poll with a receive behind it.) */
static void set_patience(struct node *n) {
    int seconds = n->next ? 0 : 10;
    struct timeval most = { .tv_sec = seconds, .tv_usec = seconds ? 0 : TICK_MICROS };
    if (n->patience == seconds) return;
    n->patience = seconds;
    setsockopt(n->socket, SOL_SOCKET, SO_RCVTIMEO, &most, sizeof most);
}

/* Waits for one datagram and takes it; whether one came. What comes from no station's port is dropped: so nobody else can make this clock
 * hurry. */
static int receive(struct node *n) {
    uint8_t bytes[VK_FRAME_BYTES + 1];
    struct sockaddr_in from;
    socklen_t size = sizeof from;
    set_patience(n);
    ssize_t len = recvfrom(n->socket, bytes, sizeof bytes, 0, (struct sockaddr *)&from, &size);
    for (unsigned i = 0; len > 0 && i < n->stations; i++)
        if (from.sin_addr.s_addr == htonl(INADDR_LOOPBACK) && ntohs(from.sin_port) == n->at[i].port)
            deliver(n, bytes, len, n->at[i].host, n->at[i].port);
    return len > 0;
}

/* The loop: takes a datagram or waits for a tick, until the process has an answer. While datagrams come it looks at the clock behind each
 * sixteenth, since that may cost as much as what a station does with one. */
vk_answer node_collect(struct node *n) {
    vk_answer a = { 0 };
    while (!vk_station_is_done(&n->station, n->task.process.host, n->task.process.local)) {
        int came = receive(n);
        if (stopped) return a;
        catch_up(n);
        if (!came || ++n->taken % LOOK_EVERY == 0) tick_when_due(n);
    }
    must(vk_station_collect(&n->station, n->task.process.host, n->task.process.local, &a), "collect");
    if (n->log) fprintf(n->log, "collect %u.%u\n", n->task.process.host, n->task.process.local);
    send_frames(n);
    return a;
}

vk_answer node_call(struct node *n, const vk_call *c, const uint8_t *bytes, size_t len) {
    vk_answer a = { 0 };
    must(vk_station_call(&n->station, n->task.process.host, n->task.process.local, c, bytes, len, &a), "call");
    if (n->log) log_call(n, c, bytes, len);
    send_frames(n);
    return a;
}

int node_load(struct node *n, uint32_t start, uint32_t count, uint8_t *into) {
    size_t len = 0;
    vk_answer a = node_call(n, &(vk_call){ .kind = VK_LOAD, .start = start, .count = count }, into, 0);
    if (a.kind != VK_LOADED) return 0;
    must(vk_station_loaded(&n->station, n->task.process.host, n->task.process.local, start, count, into, count, &len), "loaded");
    return len == count;
}

/* ---- beginning and end ---- */

/* Reads one line of the scenario: times, processes, ports, and the program of this host. All others are of other programs. */
static void read_line(struct node *n, const char *line, uint16_t host, vk_process *processes, size_t *count) {
    vk_process p;
    struct task t = { 0 };
    unsigned short station, port;
    if (sscanf(line, "times %u %u %u", &n->settings.tries, &n->settings.interval, &n->settings.life) == 3) return;
    if (sscanf(line, "process %hu.%hu %u", &p.host, &p.local, &p.size) == 3 && *count < NODE_PROCESSES) processes[(*count)++] = p;
    if (sscanf(line, "port %hu %hu", &station, &port) == 2 && n->stations < NODE_STATIONS) {
        n->at[n->stations].host = station;
        n->at[n->stations++].port = port;
    }
    int server = sscanf(line, "program %hu.%hu pageserver %u", &t.process.host, &t.process.local, &t.pages) == 3;
    t.is_client = !server && sscanf(line, "program %hu.%hu pageclient %hu.%hu %u %u", &t.process.host, &t.process.local, &t.server_host,
                                    &t.server_local, &t.pages, &t.rounds) == 6;
    if ((server || t.is_client) && t.process.host == host) n->task = t;
    if (strncmp(line, "pool ", 5) == 0) fail("scenario", "pools are not read");
}

static void open_socket(struct node *n) {
    struct sockaddr_in here = { .sin_family = AF_INET, .sin_addr = { htonl(INADDR_LOOPBACK) } };
    for (unsigned i = 0; i < n->stations; i++)
        if (n->at[i].host == n->task.process.host) here.sin_port = htons(n->at[i].port);
    n->socket = socket(AF_INET, SOCK_DGRAM, 0);
    if (here.sin_port == 0) fail("scenario", "the station has no port");
    if (n->socket < 0 || bind(n->socket, (struct sockaddr *)&here, sizeof here)) fail("socket", "the port is not to be had");
}

/* A signal ends a receive that waits; one that comes right before a receive is seen behind it. */
static void catch_signals(void) {
    struct sigaction act = { .sa_handler = stop };
    sigaction(SIGINT, &act, NULL);
    sigaction(SIGTERM, &act, NULL);
}

void node_open(struct node *n, const char *scenario, uint16_t host, const char *log) {
    static vk_process processes[NODE_PROCESSES];
    char line[4096];
    size_t count = 0;
    *n = (struct node){ .station = VK_NONE, .patience = -1, .settings = { .tries = 5, .interval = 4, .life = 8, .pool = 16 } };
    FILE *file = fopen(scenario, "r");
    if (!file) fail(scenario, "can't be read");
    while (fgets(line, sizeof line, file)) read_line(n, line, host, processes, &count);
    fclose(file);
    if (n->task.process.host == 0) fail(scenario, "has no page server or page client of this station");
    must(vk_station_open(&n->station, &n->settings, processes, count, host), "open");
    if (log && !(n->log = fopen(log, "w"))) fail(log, "can't be written");
    if (n->log) log_head(n, processes, count);
    catch_signals();
    open_socket(n);
}

void node_close(struct node *n) {
    if (n->log && fclose(n->log)) fail("log", "can't be written");
    close(n->socket);
    vk_station_close(&n->station);
}
