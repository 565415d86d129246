/* server SCENARIO HOST [LOG]: a page server, which serves until SIGINT or SIGTERM.
 *
 * It is the page server of the station HOST in the scenario, with as many pages; how many replies it may make there, it does not look at.
 * What it did is written to LOG, as `vkernel node` writes it.
 */
#include "node.h"
#include <stdlib.h>
#include <string.h>

enum { READ = 1, WRITE = 2 };
enum { DONE, NO_SUCH_PAGE, BAD_REQUEST };
enum { GRANTS_READ = 1, GRANTS_WRITE = 2 };

/* A request: who sent it, what it asks for, and the segment that it grants. */
struct request {
    uint16_t host, local;
    uint8_t grants, code;
    uint32_t page, start, len;
};

static struct request request_of(const vk_answer *a) {
    return (struct request){
        .host = a->host,
        .local = a->local,
        .grants = a->message[0],
        .code = a->message[1],
        .page = word_at(a->message + 4),
        .start = word_at(a->message + 24),
        .len = word_at(a->message + 28),
    };
}

static vk_call reply_to(const struct request *r, uint8_t code) {
    vk_call reply = { .kind = VK_REPLY, .host = r->host, .local = r->local, .message = { 0, code } };
    put_word(reply.message + 4, r->page);
    return reply;
}

/* Puts the page into the process's memory, and replies with it. */
static void reply_with_page(struct node *n, const struct request *r, const uint8_t *page) {
    vk_call store = { .kind = VK_STORE };
    vk_call reply = reply_to(r, DONE);
    reply.kind = VK_REPLY_SEGMENT;
    reply.dest = r->start;
    reply.count = PAGE_BYTES;
    node_call(n, &store, page, PAGE_BYTES);
    node_call(n, &reply, page, 0);
}

static void serve(struct node *n, uint8_t (*pages)[PAGE_BYTES], const struct request *r) {
    uint8_t code = DONE;
    if (r->code != READ && r->code != WRITE) code = BAD_REQUEST;
    else if (r->page >= n->task.pages) code = NO_SUCH_PAGE;
    else if (r->code == READ && (r->grants & GRANTS_WRITE) && r->len >= PAGE_BYTES) {
        reply_with_page(n, r, pages[r->page]);
        return;
    } else if (r->code == WRITE && (r->grants & GRANTS_READ) && r->len == PAGE_BYTES) node_load(n, 0, PAGE_BYTES, pages[r->page]);
    else code = BAD_REQUEST;
    vk_call reply = reply_to(r, code);
    node_call(n, &reply, pages[0], 0);
}

int main(int argc, char **argv) {
    struct node n;
    unsigned long served = 0;
    if (argc < 3) {
        fprintf(stderr, "server SCENARIO HOST [LOG]\n");
        return 2;
    }
    node_open(&n, argv[1], atoi(argv[2]), argc > 3 ? argv[3] : NULL);
    if (n.task.is_client) {
        fprintf(stderr, "%s: station %s is a client\n", argv[1], argv[2]);
        return 1;
    }
    uint8_t (*pages)[PAGE_BYTES] = calloc(n.task.pages, PAGE_BYTES);
    if (!pages) return 1;
    vk_call receive = { .kind = VK_RECEIVE_SEGMENT, .count = PAGE_BYTES };
    for (;;) {
        node_call(&n, &receive, pages[0], 0);
        vk_answer a = node_collect(&n);
        if (a.kind != VK_RECEIVED_SEGMENT) break;
        struct request r = request_of(&a);
        serve(&n, pages, &r);
        served++;
    }
    printf("%lu requests served\n", served);
    node_close(&n);
    free(pages);
}
