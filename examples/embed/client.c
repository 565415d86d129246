/* client SCENARIO HOST [ROUNDS [LOG]]: a client of a page server, which writes a page and reads it again in each round.
 *
 * It is the page client of the station HOST in the scenario, with as many rounds as there or as many as are asked for; of 0 rounds it goes
 * on until SIGINT or SIGTERM. A Send that times out is made anew, ten times at most. What it did is written to LOG, as `vkernel node`
 * writes it. On standard output stands what it read, on standard error how fast.
 */
#include "node.h"
#include <stdlib.h>
#include <string.h>

enum { READ = 1, WRITE = 2 };
enum { GRANTS_READ = 1, GRANTS_WRITE = 2 };
enum { MOST_TIMED_OUT = 10 };

/* What became of a Send. */
enum outcome { SERVED, NOT_SERVED, STOPPED };

struct told {
    unsigned long rounds, own, others, torn, timed_out;
};

/* Asks the server for this page, with a segment of the process's memory. */
static enum outcome ask(struct node *n, uint8_t grants, uint8_t code, uint32_t page, uint32_t start, struct told *told) {
    vk_call send = { .kind = VK_SEND, .host = n->task.server_host, .local = n->task.server_local, .message = { grants, code } };
    put_word(send.message + 4, page);
    put_word(send.message + 24, start);
    put_word(send.message + 28, PAGE_BYTES);
    for (int i = 0; i <= MOST_TIMED_OUT; i++) {
        vk_answer a = node_call(n, &send, send.message, 0);
        if (a.kind == VK_BEGUN) a = node_collect(n);
        if (a.kind == 0) return STOPPED;
        if (a.kind == VK_REPLIED) return a.message[1] == 0 ? SERVED : NOT_SERVED;
        if (a.kind != VK_REFUSED || a.why != VK_WHY_TIMED_OUT) return NOT_SERVED;
        told->timed_out++;
    }
    return NOT_SERVED;
}

/* Looks at a page that was read: it is as it was written, or as another client wrote it, or torn. */
static void look(const uint8_t *page, uint8_t fill, struct told *told) {
    if (memcmp(page, page + 1, PAGE_BYTES - 1) != 0) told->torn++;
    else if (page[0] == fill) told->own++;
    else told->others++;
}

static enum outcome play_round(struct node *n, unsigned long round, struct told *told) {
    uint8_t page[PAGE_BYTES], fill = round + n->task.process.host;
    memset(page, fill, sizeof page);
    node_call(n, &(vk_call){ .kind = VK_STORE }, page, sizeof page);
    enum outcome written = ask(n, GRANTS_READ, WRITE, round % n->task.pages, 0, told);
    if (written != SERVED) return written;
    enum outcome got = ask(n, GRANTS_WRITE, READ, round % n->task.pages, PAGE_BYTES, told);
    if (got != SERVED) return got;
    if (!node_load(n, PAGE_BYTES, PAGE_BYTES, page)) return NOT_SERVED;
    look(page, fill, told);
    told->rounds++;
    return SERVED;
}

int main(int argc, char **argv) {
    struct node n;
    struct told told = { 0 };
    enum outcome outcome = SERVED;
    if (argc < 3) {
        fprintf(stderr, "client SCENARIO HOST [ROUNDS [LOG]]\n");
        return 2;
    }
    node_open(&n, argv[1], atoi(argv[2]), argc > 4 ? argv[4] : NULL);
    if (!n.task.is_client) {
        fprintf(stderr, "%s: station %s is no page client\n", argv[1], argv[2]);
        return 1;
    }
    unsigned long rounds = argc > 3 ? strtoul(argv[3], NULL, 10) : n.task.rounds;
    uint64_t begun = now_micros();
    while (outcome == SERVED && (rounds == 0 || told.rounds < rounds)) outcome = play_round(&n, told.rounds, &told);
    double seconds = (now_micros() - begun) / 1e6;
    printf("%lu rounds: %lu pages as written, %lu of other clients, %lu torn\n", told.rounds, told.own, told.others, told.torn);
    fprintf(stderr, "%.0f exchanges and pages a second; %lu timed out\n", 2 * told.rounds / seconds, told.timed_out);
    node_close(&n);
    return outcome == NOT_SERVED || told.torn > 0;
}
