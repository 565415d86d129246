/* vk_c.h - one station of vkernel for C: the kernel of one machine of the Distributed V Kernel's interprocess communication, without
 * clock, threads or wires.
 *
 * The program feeds a station events, one at a time: a call or a collect of one of its processes, a tick, or bytes that came from another
 * station. The station answers each event at once, and may leave frames for others. The program sends them as it likes; they may be lost,
 * repeated, reordered or late. A station keeps no history and takes no memory after vk_station_open, so it serves for ever.
 *
 *     vk_station station = VK_NONE;
 *     vk_station_open(&station, &settings, processes, count, 1);
 *     vk_station_call(&station, 1, 1, &send, bytes, 0, &answer);        for each call of a process
 *     vk_station_deliver(&station, bytes, len, &answer);                     for each datagram that came
 *     vk_station_tick(&station, &answer);                                    for each beat of the program's clock
 *     for (i = 0; i < vk_station_frame_count(&station); i++)                 after each of these
 *         vk_station_frame(&station, i, room, sizeof room, &len, &to);       and send it
 *     if (vk_station_is_done(&station, 1, 1)) vk_station_collect(&station, 1, 1, &answer);
 *     vk_station_close(&station);
 *
 * What a caller owes, which nothing checks:
 *   - each pointer is aligned and not null, and points to as many bytes as its type or the length beside it says; not null also where
 *     that length is 0;
 *   - what is written through one pointer of a call is reached through no other one of that call;
 *   - a vk_station begins as VK_NONE, the program never writes it, and never copies it while it holds a station;
 *   - a vk_station is in one call at a time, and on the thread that opened it.
 * All else is checked: a wrong pid, a wrong call, a room that is too small, a station that was closed are a number of enum vk_status.
 */
#ifndef VK_C_H
#define VK_C_H

#include <stddef.h>
#include <stdint.h>

#ifdef __cplusplus
extern "C" {
#endif

#define VK_MESSAGE_BYTES 32      /* of a message */
#define VK_DATA_BYTES 1024       /* of a Store or a Load, at most */
#define VK_FRAME_BYTES 1152      /* of a frame, at most */
#define VK_STEP_BYTES 2200       /* of the text of a step, at most */
#define VK_EVENT_FRAMES 2048     /* of one event, at most */
#define VK_EVENT_STEPS 40        /* of one event, at most */
#define VK_MEMORY_BYTES 131072   /* of a process, at most */
#define VK_EVERY_STATION 65535   /* whom a frame is for: all stations but the one that sends it */

/* A station, or none. The program keeps it, and never looks into it. */
typedef struct vk_station { void *at; size_t held; } vk_station;
#define VK_NONE { 0, 0 }

/* What a function answers. Where it is not VK_OK, the function has changed nothing and written nothing. */
enum vk_status {
    VK_OK = 0,
    VK_NO_STATION = 1,         /* the vk_station holds none: never opened, or closed */
    VK_HELD = 2,               /* the vk_station holds one already */
    VK_NO_SUCH_PROCESS = 3,    /* the station has no process of this host and local */
    VK_BAD_CALL = 4,           /* kind, scope or a pid of the call is none, or a Store has more than VK_DATA_BYTES */
    VK_SPENT = 5,              /* the station has had all its 2^48 events */
    VK_NO_FRAME = 6,           /* the last event left no such frame */
    VK_NO_ROOM = 7,            /* the bytes do not fit into the room */
    VK_NO_MEMORY = 8,          /* malloc gave none */
    VK_BAD_HOST = 9,           /* no station has this number: 0 or 65,535 */
    VK_BAD_PID = 10,           /* a process has host 0, host 65,535 or local 0 */
    VK_BAD_TIMES = 11,         /* tries, interval or life are out of range */
    VK_BAD_POOL = 12,          /* a pool is not 1 to 64 */
    VK_NOT_RISING = 13,        /* the processes do not stand by rising hosts and locals */
    VK_BAD_SIZE = 14,          /* a process has more than VK_MEMORY_BYTES */
    VK_TOO_MANY = 15,          /* more than 16 stations, or more than 32 processes of one */
    VK_NO_STEP = 16,           /* the last event had no such step */
    VK_NO_SUCH_STATION = 17    /* a vk_pool is of a host that has no process */
};

/* Which call it is. */
enum vk_call_kind {
    VK_SEND = 1,               /* message to host.local, which is to reply */
    VK_RECEIVE = 2,            /* the next message */
    VK_RECEIVE_SEGMENT = 3,    /* the same, with the first bytes of its segment put at start, at most count */
    VK_REPLY = 4,              /* message to host.local, whose message was received */
    VK_REPLY_SEGMENT = 5,      /* the same, with count bytes from src put at dest of the sender's segment */
    VK_FORWARD = 6,            /* the message of host.local is from now on for to_host.to_local, as message */
    VK_MOVE_TO = 7,            /* count bytes from src to dest of the memory of host.local */
    VK_MOVE_FROM = 8,          /* count bytes from src of the memory of host.local to dest */
    VK_SET_PID = 9,            /* host.local is the process of this logical id, within this scope */
    VK_GET_PID = 10,           /* which process this logical id stands for, within this scope */
    VK_LOAD = 11,              /* count bytes from start of the caller's own memory: vk_station_loaded gives them */
    VK_STORE = 12,             /* the bytes beside the call go to start of the caller's own memory */
    VK_EXIT = 13               /* the caller ends */
};

enum vk_scope { VK_LOCAL = 0, VK_REMOTE = 1, VK_BOTH = 2 };

/* Which answer it is, and which of its fields count. */
enum vk_answer_kind {
    VK_BEGUN = 1,              /* the call waits; collect its answer once vk_station_is_done says 1 */
    VK_DONE = 2,               /* with nothing more to tell */
    VK_REPLIED = 3,            /* message: the reply to a Send */
    VK_RECEIVED = 4,           /* host, local: who sent; message */
    VK_RECEIVED_SEGMENT = 5,   /* the same; count: bytes of its segment that came */
    VK_FOUND = 6,              /* host, local: whom a logical id stands for */
    VK_LOADED = 7,             /* count: bytes that vk_station_loaded gives */
    VK_REFUSED = 8,            /* why */
    VK_TICKED = 9,             /* now: the new tick */
    VK_TAKEN = 10,             /* the bytes were a frame for this station */
    VK_OLD = 11,               /* the frame was too old, and is dropped */
    VK_BAD = 12                /* the bytes were no frame for this station, and are dropped */
};

/* Why a call was refused. */
enum vk_why {
    VK_WHY_NO_PROCESS = 1,     /* there is no such process */
    VK_WHY_TIMED_OUT = 2,      /* the other station did not answer */
    VK_WHY_BAD_SEGMENT = 3,    /* the message grants a segment that the memory has not */
    VK_WHY_NOT_AWAITING = 4,   /* the process awaits no reply from the caller */
    VK_WHY_NO_ACCESS = 5,      /* its message does not grant this */
    VK_WHY_BAD_RANGE = 6,      /* the memory has no such range */
    VK_WHY_TOO_LONG = 7,       /* too many bytes for one call */
    VK_WHY_GONE = 8,           /* the partner of a move is gone */
    VK_WHY_NOT_FOUND = 9,      /* no process is known by the logical id */
    VK_WHY_NAMES_FULL = 10,    /* the station has as many logical ids as it can have */
    VK_WHY_BUSY = 11,          /* the process waits for the answer to an earlier call */
    VK_WHY_NOT_YET = 12,       /* there is nothing to collect */
    VK_WHY_DEAD = 13           /* the process has ended */
};

/* Transmissions of what is sent again and again, 1 to 16; ticks between two, 1 to 64; ticks until a frame is old, 0 to 1,024; and the
 * slots for remote senders that each station has, 1 to 64. All stations of a run have the same settings. */
typedef struct vk_settings { uint32_t tries, interval, life, pool; } vk_settings;

/* A process: its host, 1 to 65,534, its number there, 1 to 65,535, and the bytes of its memory, which begin as 0. */
typedef struct vk_process { uint16_t host, local; uint32_t size; } vk_process;

/* The slots for remote senders that one station has, 1 to 64, in place of those of the settings. */
typedef struct vk_pool { uint16_t host, slots; } vk_pool;

/* A call. kind tells which of the other fields count; the others may have any values. */
typedef struct vk_call {
    uint32_t kind, scope;
    uint16_t host, local, to_host, to_local;
    uint32_t logical, start, dest, src, count;
    uint8_t message[VK_MESSAGE_BYTES];
} vk_call;

/* An answer. kind tells which of the other fields count; the others are 0. */
typedef struct vk_answer {
    uint32_t kind, why;
    uint16_t host, local;
    uint32_t count;
    uint64_t now;
    uint8_t message[VK_MESSAGE_BYTES];
} vk_answer;

/* Opens the station of this host, before its first event. The processes are those of all stations of the run, by rising hosts and locals;
 * those of this host are the station's own, and it may have none. They are copied. Answers VK_HELD, VK_BAD_HOST, VK_BAD_PID, VK_BAD_TIMES,
 * VK_BAD_POOL, then VK_NOT_RISING, VK_BAD_SIZE or VK_TOO_MANY for the first process at fault, the first of these that holds; or
 * VK_NO_MEMORY. Owes the program a vk_station_close. */
uint32_t vk_station_open(vk_station *station, const vk_settings *settings, const vk_process *processes, size_t processes_len,
                         uint16_t host);

/* The same, where some stations have a pool of their own; of two for one host the later counts. Answers besides, after all else,
 * VK_NO_SUCH_STATION or VK_BAD_POOL for the first pool at fault. */
uint32_t vk_station_open_with_pools(vk_station *station, const vk_settings *settings, const vk_process *processes, size_t processes_len,
                                    const vk_pool *pools, size_t pools_len, uint16_t host);

/* Ends the station and gives its memory back. The vk_station then holds none, and may be opened again. Answers VK_NO_STATION where it
 * held none. */
uint32_t vk_station_close(vk_station *station);

/* The event that process host.local makes the call. The bytes are those of a Store, at most VK_DATA_BYTES, and count for nothing with
 * other calls, but not more of them are taken. Answers VK_NO_STATION, VK_NO_SUCH_PROCESS, VK_BAD_CALL or VK_SPENT, the first of these that
 * holds. What the rules refuse is VK_OK with an answer of kind VK_REFUSED. */
uint32_t vk_station_call(vk_station *station, uint16_t host, uint16_t local, const vk_call *call, const uint8_t *bytes, size_t bytes_len,
                         vk_answer *answer);

/* The event that process host.local collects the answer to its last call. One that comes too early is an event too, with an answer of kind
 * VK_REFUSED for VK_WHY_NOT_YET. Answers VK_NO_STATION, VK_NO_SUCH_PROCESS or VK_SPENT. */
uint32_t vk_station_collect(vk_station *station, uint16_t host, uint16_t local, vk_answer *answer);

/* The event that the station's clock ticks: what is due is sent again or given up. Answers VK_NO_STATION or VK_SPENT. */
uint32_t vk_station_tick(vk_station *station, vk_answer *answer);

/* The event that these bytes came, whatever they are and however many. Answers VK_NO_STATION or VK_SPENT. */
uint32_t vk_station_deliver(vk_station *station, const uint8_t *bytes, size_t bytes_len, vk_answer *answer);

/* 1 where process host.local has an answer to collect; 0 where it has none, or there is no such process or station. No event. */
uint32_t vk_station_is_done(vk_station *station, uint16_t host, uint16_t local);

/* How many frames the last event left, at most VK_EVENT_FRAMES; 0 where there is no station. They stand until the next event. */
uint32_t vk_station_frame_count(vk_station *station);

/* Copies frame `at` of the last event, counted from 0, to the front of the room, and gives its length and the station that it is for, or
 * VK_EVERY_STATION. A room of VK_FRAME_BYTES takes any. Answers VK_NO_STATION, VK_NO_FRAME or VK_NO_ROOM. */
uint32_t vk_station_frame(vk_station *station, uint32_t at, uint8_t *room, size_t room_len, size_t *len, uint16_t *to);

/* Copies the bytes that process host.local was answered a Load of this start and count with to the front of the room, and gives how many
 * they are. They stand until the next event. A room of VK_DATA_BYTES takes any. Answers VK_NO_STATION, VK_NO_SUCH_PROCESS or VK_NO_ROOM. */
uint32_t vk_station_loaded(vk_station *station, uint16_t host, uint16_t local, uint32_t start, uint32_t count, uint8_t *room,
                           size_t room_len, size_t *len);

/* How many steps of the one-machine kernel the last event was, at most VK_EVENT_STEPS; 0 where there is no station. */
uint32_t vk_station_step_count(vk_station *station);

/* Copies the text of step `at` of the last event, counted from 0, to the front of the room, and gives its length: one line of a trace,
 * as `take 1.2`, without a line feed or a 0 at its end. A room of VK_STEP_BYTES takes any. Takes memory for the call alone. Answers
 * VK_NO_STATION, VK_NO_STEP, VK_NO_ROOM or VK_NO_MEMORY. */
uint32_t vk_station_step(vk_station *station, uint32_t at, uint8_t *room, size_t room_len, size_t *len);

/* The station's tick, its Lamport number, and how many events it had; 0 where there is no station. */
uint64_t vk_station_now(vk_station *station);
uint64_t vk_station_number(vk_station *station);
uint64_t vk_station_events(vk_station *station);

#ifdef __cplusplus
}
#endif
#endif
