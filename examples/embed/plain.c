/* plain exchange|page COUNT PORT: the datagrams of so many exchanges, or page writes and reads, over plain sockets of two processes: what
 * this machine gives at best. Each side waits in a blocking receive, and knows the other alone. The ports are PORT and the next one.
 * Prints how many a second.
 */
#include <arpa/inet.h>
#include <stdio.h>
#include <stdlib.h>
#include <string.h>
#include <sys/socket.h>
#include <sys/wait.h>
#include <time.h>
#include <unistd.h>

/* The bytes of the datagrams of a round, in order; the client sends every second one, beginning with the first. */
static const size_t exchange[] = { 81, 87, 0 }, page[] = { 593, 87, 81, 599, 0 };

static int open_socket(unsigned port, unsigned other) {
    struct sockaddr_in here = { .sin_family = AF_INET, .sin_port = htons(port), .sin_addr = { htonl(INADDR_LOOPBACK) } };
    struct sockaddr_in there = here;
    there.sin_port = htons(other);
    int s = socket(AF_INET, SOCK_DGRAM, 0);
    if (bind(s, (struct sockaddr *)&here, sizeof here) || connect(s, (struct sockaddr *)&there, sizeof there)) {
        perror("plain");
        exit(1);
    }
    return s;
}

static void play(int s, int is_client, const size_t *sizes, long count) {
    static char out[2048], in[2048];
    for (long n = 0; n < count; n++)
        for (int at = 0; sizes[at]; at++) {
            if ((at % 2 == 0) == is_client) send(s, out, sizes[at], 0);
            else recv(s, in, sizeof in, 0);
        }
}

int main(int argc, char **argv) {
    if (argc != 4) return 2;
    const size_t *sizes = strcmp(argv[1], "page") ? exchange : page;
    long count = atol(argv[2]);
    unsigned port = atoi(argv[3]);
    int server = open_socket(port, port + 1), client = open_socket(port + 1, port);
    pid_t child = fork();
    if (child == 0) {
        play(server, 0, sizes, count);
        _exit(0);
    }
    struct timespec from, to;
    clock_gettime(CLOCK_MONOTONIC, &from);
    play(client, 1, sizes, count);
    clock_gettime(CLOCK_MONOTONIC, &to);
    waitpid(child, NULL, 0);
    printf("%.0f\n", count / (to.tv_sec - from.tv_sec + (to.tv_nsec - from.tv_nsec) / 1e9));
}
