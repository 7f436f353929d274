/* The transport of one emitted node: its clock, its datagrams on 127.0.0.1, and its log of what happened.

   All of it is one thread, so nothing is delivered while the node is activated. The log has a line
   NANOSECONDS,EVENT,PLACE for each activation and each delivery, in the order in which they happened here. */
#define _POSIX_C_SOURCE 200809L
#include <arpa/inet.h>
#include <errno.h>
#include <fcntl.h>
#include <inttypes.h>
#include <netinet/in.h>
#include <stdio.h>
#include <stdlib.h>
#include <string.h>
#include <sys/select.h>
#include <sys/socket.h>
#include <time.h>
#include <unistd.h>
#include "node.h"

enum { DATA = 0, ACK = 1 };
enum { HEAD = 4, HELD = 8, LIMIT = 60 };   /* words before a message's own; messages held for a channel; seconds to live at most */
static const char *const kinds[2] = { "data", "ack" }, *const losses[2] = { "losedata", "loseack" };

/* A channel to this node: what was received and is not due yet; the number of the last message each way; and how many in a row were lost
   of those that this node sent. */
struct held { int64_t due; bool lost; int64_t word[NODE_WORDS]; };
struct channel { int64_t sent, received, lost; size_t first, count; struct held held[HELD]; };
static struct channel channels[2][NODE_PEERS];

static int64_t start, tick, horizon;          /* start and tick in nanoseconds, the horizon in ticks */
static int64_t least, most;                   /* of a period, in ticks */
static int64_t delay_least, delay_most;       /* of a message's delay, in ticks */
static const char *fault;                     /* what goes wrong at this node, if something is to */
static int64_t fault_at, late_by;             /* at which message or activation; by how many ticks */
static int64_t messages, lost, activations;
static int port, hole;                        /* the port of the first node; the socket */
static uint64_t seed;
static bool broken;                           /* a message is missing: the node stops */
static FILE *record;
static size_t executed, sendings;

void fail(const char *what)
{
    fprintf(stderr, "%s: %s: %s\n", node_peers[node_self].name, what, errno != 0 ? strerror(errno) : "wrong");
    exit(1);
}

static int64_t clock_now(void)
{
    struct timespec t;
    if (clock_gettime(CLOCK_MONOTONIC, &t) != 0) { fail("clock"); }
    return (int64_t)t.tv_sec * 1000000000 + (int64_t)t.tv_nsec - start;
}

/* A number from low to high, by SplitMix64. */
static int64_t draw(int64_t low, int64_t high)
{
    uint64_t z = (seed += UINT64_C(0x9e3779b97f4a7c15));
    z = (z ^ (z >> 30)) * UINT64_C(0xbf58476d1ce4e5b9);
    z = (z ^ (z >> 27)) * UINT64_C(0x94d049bb133111eb);
    return low + (int64_t)((z ^ (z >> 31)) % (uint64_t)(high - low + 1));
}

/* Notes an event of now. What is past the horizon is not part of the run: the caller stops. */
static bool note(int64_t *now, const char *event, const char *from, const char *to)
{
    *now = clock_now();
    if (*now / tick > horizon) { return false; }
    fprintf(record, "%" PRId64 ",%s,%s%s%s\n", *now, event, from, to[0] != '\0' ? ">" : "", to);
    return true;
}

/* Whether the fault of this name is to happen now; it is reported on standard error. */
static bool struck(const char *name, int64_t count, int64_t now, const char *at)
{
    if (count != fault_at || strcmp(fault, name) != 0) { return false; }
    fprintf(stderr, "%s at %" PRId64 ": %s\n", name, now / tick, at);
    return true;
}

/* Whether the link loses a message, where it may and is to: one in four, and no more in a row than the setup says. Such a message comes
   with a mark, and is thrown away when it is due, as one that fails its checksum. */
static bool loses(struct channel *c)
{
    if (node_losses < 0 || strcmp(fault, "drop") != 0) { return false; }
    c->lost = c->lost < node_losses && draw(0, 3) == 0 ? c->lost + 1 : 0;
    lost += c->lost > 0 ? 1 : 0;
    return c->lost > 0;
}

/* Sends one datagram: kind, number, when it is due, whether it is lost, and the words, each in eight bytes with the highest first. */
static void send_to(int kind, size_t peer, int64_t now, const int64_t *words, size_t count)
{
    struct sockaddr_in to = { .sin_family = AF_INET, .sin_port = htons((uint16_t)((size_t)port + peer)) };
    int64_t all[HEAD + NODE_WORDS] = { kind, ++channels[kind][peer].sent, now + tick * draw(delay_least, delay_most), loses(&channels[kind][peer]) ? 1 : 0 };
    unsigned char bytes[sizeof all];
    char place[160];
    size_t size = 0;
    to.sin_addr.s_addr = htonl(INADDR_LOOPBACK);
    memcpy(all + HEAD, words, count * sizeof words[0]);
    snprintf(place, sizeof place, "%s>%s", node_peers[node_self].name, node_peers[peer].name);
    messages += 1;
    if (node_losses < 0 && struck("drop", messages, now, place)) { return; }
    if (struck("late", messages, now, place)) { all[2] = now + tick * late_by; }
    for (size_t i = 0; i < HEAD + count; i++) {
        for (int shift = 56; shift >= 0; shift -= 8) { bytes[size++] = (unsigned char)((uint64_t)all[i] >> shift); }
    }
    (void)sendto(hole, bytes, size, 0, (const struct sockaddr *)&to, sizeof to);   /* a failure is a lost message */
}

/* The words of a datagram, if it comes from a node of ours and is of a channel to this one. */
static bool read_words(const unsigned char *bytes, ssize_t got, const struct sockaddr_in *from, int64_t *all, size_t *peer)
{
    size_t words = (size_t)got / 8;
    *peer = (size_t)(ntohs(from->sin_port) - port);
    if (from->sin_addr.s_addr != htonl(INADDR_LOOPBACK) || *peer >= node_peer_count) { return false; }
    if (got % 8 != 0 || words <= HEAD || words > HEAD + NODE_WORDS) { return false; }
    for (size_t i = 0; i < words; i++) {
        uint64_t word = 0;
        for (size_t b = 0; b < 8; b++) { word = word << 8 | bytes[8 * i + b]; }
        memcpy(&all[i], &word, sizeof word);
    }
    const struct peer *p = &node_peers[*peer];
    return all[0] == DATA ? p->deliver != NULL && words == HEAD + p->words : all[0] == ACK && p->acknowledge != NULL && words == HEAD + 1;
}

/* Takes all datagrams off the socket. One of a stranger, or of a number that was passed already, is dropped. Where a number is
   missing, a message was lost or a node began anew, and the node stops: its silence is then in the record. */
static void receive(void)
{
    for (;;) {
        unsigned char bytes[8 * (HEAD + NODE_WORDS) + 1];
        struct sockaddr_in from;
        socklen_t size = sizeof from;
        int64_t all[HEAD + NODE_WORDS] = { 0 };
        size_t peer = 0;
        ssize_t got = recvfrom(hole, bytes, sizeof bytes, 0, (struct sockaddr *)&from, &size);
        if (got < 0) { return; }
        if (!read_words(bytes, got, &from, all, &peer)) { continue; }
        struct channel *c = &channels[all[0]][peer];
        if (all[1] <= c->received) { continue; }
        if (all[1] != c->received + 1) {
            fprintf(stderr, "%s: a message is missing: %s from %s\n", node_peers[node_self].name, kinds[all[0]], node_peers[peer].name);
            broken = true;
            return;
        }
        if (c->count == HELD) { fail("too many messages under way"); }
        c->received = all[1];
        struct held *h = &c->held[(c->first + c->count++) % HELD];
        h->due = all[2];
        h->lost = all[3] != 0;
        memcpy(h->word, all + HEAD, sizeof h->word);
    }
}

/* The channel whose oldest message is due first; NULL where all are empty. */
static struct channel *earliest(int *kind, size_t *peer)
{
    struct channel *best = NULL;
    for (int k = DATA; k <= ACK; k++) {
        for (size_t p = 0; p < node_peer_count; p++) {
            struct channel *c = &channels[k][p];
            if (c->count > 0 && (best == NULL || c->held[c->first].due < best->held[best->first].due)) {
                best = c;
                *kind = k;
                *peer = p;
            }
        }
    }
    return best;
}

/* Hands over all messages that are due, and throws away those that are lost. */
static bool deliver(void)
{
    int kind = 0;
    size_t peer = 0;
    int64_t now = clock_now();
    for (struct channel *c = earliest(&kind, &peer); c != NULL && c->held[c->first].due <= now; c = earliest(&kind, &peer)) {
        const struct peer *from = &node_peers[peer];
        const struct held *h = &c->held[c->first];
        if (!note(&now, h->lost ? losses[kind] : kinds[kind], from->name, node_peers[node_self].name)) { return false; }
        if (h->lost) {
            /* it does not come */
        } else if (kind == DATA) {
            from->deliver(h->word);
        } else {
            from->acknowledge(h->word[0]);
        }
        c->first = (c->first + 1) % HELD;
        c->count -= 1;
    }
    return true;
}

/* What is to go wrong at an activation: the node stops, or it and its transport begin anew. Whether the node goes on. */
static bool goes_on(void)
{
    if (struck("stop", activations, clock_now(), node_peers[node_self].name)) { return false; }
    if (struck("restart", activations, clock_now(), node_peers[node_self].name)) {
        node_init();
        memset(channels, 0, sizeof channels);
        executed = 0;
        sendings = 0;
    }
    return true;
}

/* One activation, which is noted at its beginning; what it gives is sent after it, and where links lose messages all that was sent last. */
static bool activate(int64_t *now)
{
    int64_t words[NODE_WORDS];
    if (!goes_on() || !note(now, "act", node_peers[node_self].name, "")) { return false; }
    activations += 1;
    int deed = node_activate(executed < rows(), inputs_of(executed), outputs_of(executed));
    executed += deed == DEED_EXECUTE ? 1u : 0u;
    sendings += deed == DEED_SEND ? 1u : 0u;
    bool answers = node_losses < 0 ? deed == DEED_EXECUTE : executed > 0, sends = node_losses < 0 ? deed == DEED_SEND : sendings > 0;
    for (size_t p = 0; p < node_peer_count; p++) {
        if (answers && node_peers[p].answered) {
            words[0] = node_acknowledgement();
            send_to(ACK, p, *now, words, 1);
        }
        if (sends && node_peers[p].message != NULL) { send_to(DATA, p, *now, words, node_peers[p].message(words)); }
    }
    return true;
}

/* Waits until then, or until a datagram comes. */
static void wait_until(int64_t when)
{
    int64_t left = when - clock_now();
    struct timespec t = { .tv_sec = (time_t)(left / 1000000000), .tv_nsec = (long)(left % 1000000000) };
    fd_set set;
    FD_ZERO(&set);
    FD_SET(hole, &set);
    if (left > 0 && pselect(hole + 1, &set, NULL, NULL, &t, NULL) < 0 && errno != EINTR) { fail("wait"); }
}

/* The node lives to the horizon. Its clock drifts: its period goes a little up or down at each activation, and each activation is
   off by some jitter. The next one is counted from the last one as it was, so that a late one does not make the next come too soon. */
static void live(void)
{
    int64_t spread = (most - least) / 4, period = draw(least + spread, most - spread), next = tick * draw(0, most), now = 0;
    for (bool on = true; on;) {
        receive();
        on = !broken && deliver();
        if (on && clock_now() >= next) {
            on = activate(&now);
            period += draw(-spread / 8, spread / 8);
            period = period < least + spread ? least + spread : period > most - spread ? most - spread : period;
            next = now + tick * (period + draw(-spread, spread));
        } else if (on) {
            int kind = 0;
            size_t peer = 0;
            const struct channel *c = earliest(&kind, &peer);
            wait_until(c != NULL && c->held[c->first].due < next ? c->held[c->first].due : next);
            on = clock_now() < tick * (horizon + 1);
        }
    }
}

int main(int argc, char **argv)
{
    struct sockaddr_in self = { .sin_family = AF_INET };
    if (argc != 15) { fail("usage: INPUTS LOG PORT SEED START TICK HORIZON PERIOD PERIOD DELAY DELAY FAULT AT BY"); }
    read_inputs(argv[1]);
    record = fopen(argv[2], "w");
    port = atoi(argv[3]);
    seed = strtoull(argv[4], NULL, 10) * 1000 + node_self;
    int64_t *const numbers[] = { &start, &tick, &horizon, &least, &most, &delay_least, &delay_most };
    for (size_t i = 0; i < sizeof numbers / sizeof numbers[0]; i++) { *numbers[i] = strtoll(argv[5 + i], NULL, 10); }
    fault = argv[12];
    fault_at = strtoll(argv[13], NULL, 10);
    late_by = strtoll(argv[14], NULL, 10);
    self.sin_port = htons((uint16_t)((size_t)port + node_self));
    self.sin_addr.s_addr = htonl(INADDR_LOOPBACK);
    hole = socket(AF_INET, SOCK_DGRAM, 0);
    if (record == NULL || hole < 0 || fcntl(hole, F_SETFL, O_NONBLOCK) != 0) { fail("open"); }
    if (bind(hole, (const struct sockaddr *)&self, sizeof self) != 0) { fail("bind"); }
    alarm(LIMIT);
    node_init();
    live();
    (void)fclose(record);
    if (lost > 0) { fprintf(stderr, "%s: %" PRId64 " of its %" PRId64 " messages were lost\n", node_peers[node_self].name, lost, messages); }
    print_outputs(executed);
    return 0;
}
