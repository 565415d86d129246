// Loaded before a program (LD_PRELOAD): notes when it sends a datagram and when one has come, when a thread begins and when one has been
// joined. At the end of the program the notes are written to the file that RECORD names.
#define _GNU_SOURCE
#include <dlfcn.h>
#include <endian.h>
#include <pthread.h>
#include <stdatomic.h>
#include <stdint.h>
#include <stdio.h>
#include <stdlib.h>
#include <string.h>
#include <sys/socket.h>
#include <sys/syscall.h>
#include <time.h>
#include <unistd.h>

// Where a frame has its kind and the number of its Send, of eight bytes.
enum { KIND = 32, NUMBER = 41, NOTES = 1 << 17 };

struct note {
    uint64_t nanoseconds, number;
    uint32_t length;
    uint8_t what, kind, rest[2];
};

static struct note notes[NOTES];
static atomic_uint count;

static void note(uint8_t what, const uint8_t *datagram, size_t length) {
    unsigned place = count++;
    if (place >= NOTES)
        return;
    struct timespec now;
    clock_gettime(CLOCK_MONOTONIC, &now);
    struct note made = {.nanoseconds = now.tv_sec * 1000000000ull + now.tv_nsec, .length = length, .what = what};
    if (length >= NUMBER + 8) {
        memcpy(&made.number, datagram + NUMBER, 8);
        made.number = be64toh(made.number);
        made.kind = datagram[KIND];
    }
    notes[place] = made;
}

ssize_t sendto(int socket, const void *datagram, size_t length, int flags, const struct sockaddr *to, socklen_t size) {
    note('S', datagram, length);
    return syscall(SYS_sendto, socket, datagram, length, flags, to, size);
}

ssize_t recvfrom(int socket, void *datagram, size_t room, int flags, struct sockaddr *from, socklen_t *size) {
    ssize_t length = syscall(SYS_recvfrom, socket, datagram, room, flags, from, size);
    if (length > 0)
        note('R', datagram, length);
    return length;
}

int pthread_create(pthread_t *thread, const pthread_attr_t *attributes, void *(*work)(void *), void *argument) {
    int (*create)(pthread_t *, const pthread_attr_t *, void *(*)(void *), void *) = dlsym(RTLD_NEXT, "pthread_create");
    note('B', 0, 0);
    return create(thread, attributes, work, argument);
}

int pthread_join(pthread_t thread, void **result) {
    int (*join)(pthread_t, void **) = dlsym(RTLD_NEXT, "pthread_join");
    int status = join(thread, result);
    note('J', 0, 0);
    return status;
}

// The room is touched before it is timed.
__attribute__((constructor)) static void begin(void) {
    memset(notes, 1, sizeof notes);
}

__attribute__((destructor)) static void end(void) {
    FILE *file = fopen(getenv("RECORD"), "w");
    if (file) {
        fwrite(notes, sizeof *notes, count < NOTES ? count : NOTES, file);
        fclose(file);
    }
}

// Some programs end so, without destructors.
void _exit(int status) {
    end();
    for (;;)
        syscall(SYS_exit_group, status);
}
