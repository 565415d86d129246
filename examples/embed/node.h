/* One station as a process of the machine: a vk_station, a UDP socket at its port, a clock of milliseconds, and, where it is wanted, a
 * text of what happened, which `vkernel join` reads. One process of the station lives in the program, and its calls are made here.
 *
 * Stations, times, processes and ports are those of a scenario of `vkernel node`, and so are the datagrams: a node in C talks to one of
 * `vkernel node`. What is beyond its rules: whom an old frame came from is told the time, by a frame's header with nothing behind it, which
 * opens as no frame and is dropped by others; and the clock stands while nothing is on its way.
 */
#ifndef NODE_H
#define NODE_H
#include "vk_c.h"
#include <stdio.h>

enum { NODE_STATIONS = 16, NODE_PROCESSES = 512, PAGE_BYTES = 512 };

/* The program of the node's process: a page server, or a client of the page server `server`. */
struct task {
    int is_client;
    vk_process process;
    uint16_t server_host, server_local;
    unsigned pages, rounds;
};

struct node {
    vk_station station;
    vk_settings settings;
    struct task task;
    int socket;
    unsigned stations;
    struct { uint16_t host, port; } at[NODE_STATIONS];
    uint64_t ticks, heard;      /* ticks so far; the greatest tick of another station that was heard of */
    uint64_t quiet;             /* the tick behind which the clock stands */
    uint64_t next;              /* when the next tick is due, in microseconds; 0: the clock stands */
    unsigned taken;             /* datagrams that came */
    int patience;               /* the seconds for which a receive waits; 0: for a tick */
    FILE *log;
};

/* Reads the scenario, opens the station `host` and its socket, and begins the text of what happens where a path is given for it. SIGINT and
 * SIGTERM end what waits from then on. Where that is not possible, it says why and ends the program. */
void node_open(struct node *, const char *scenario, uint16_t host, const char *log);
void node_close(struct node *);

/* Makes a call of the process, with the bytes of a Store, and sends what that gives. A call that is begun is answered by `node_collect`. */
vk_answer node_call(struct node *, const vk_call *, const uint8_t *bytes, size_t len);
/* Sees to socket and clock until the process has an answer, and collects it. The kind of the answer is 0 where a signal came. */
vk_answer node_collect(struct node *);
/* The bytes of the process's memory, at most VK_DATA_BYTES. Whether there were as many. */
int node_load(struct node *, uint32_t start, uint32_t count, uint8_t *into);

/* The number in four bytes of a message, the first counting most. */
uint32_t word_at(const uint8_t *);
void put_word(uint8_t *, uint32_t);
/* Microseconds of a clock that never goes back. */
uint64_t now_micros(void);

#endif
