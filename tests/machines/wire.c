/* A switch between network interfaces that holds each frame for some time: wire MICROSECONDS INTERFACE ..
   So a round trip through it takes twice that time. It learns behind which interface an address is. */
#define _GNU_SOURCE
#include <arpa/inet.h>
#include <errno.h>
#include <linux/if_packet.h>
#include <net/ethernet.h>
#include <net/if.h>
#include <poll.h>
#include <stdio.h>
#include <stdlib.h>
#include <string.h>
#include <sys/socket.h>
#include <time.h>

enum { PORTS = 8, WAITING = 1 << 16, LONGEST = 1 << 16, KNOWN = 64, AT_ONCE = 64 };

struct frame { long long due; int from, length; unsigned char *bytes; };
static struct frame waiting[WAITING];
static unsigned first, after;
static unsigned char addresses[KNOWN][6];
static int places[KNOWN], known;

static long long now(void) {
    struct timespec time;
    clock_gettime(CLOCK_MONOTONIC, &time);
    return time.tv_sec * 1000000000LL + time.tv_nsec;
}

/* A socket that gets and sends all frames of an interface. */
static int opened(const char *interface) {
    struct sockaddr_ll place = {.sll_family = AF_PACKET, .sll_protocol = htons(ETH_P_ALL), .sll_ifindex = if_nametoindex(interface)};
    struct packet_mreq all = {.mr_ifindex = place.sll_ifindex, .mr_type = PACKET_MR_PROMISC};
    int port = socket(AF_PACKET, SOCK_RAW, place.sll_protocol), yes = 1, much = 16 << 20;
    if (port < 0 || bind(port, (void *)&place, sizeof place)) { perror(interface); exit(1); }
    setsockopt(port, SOL_PACKET, PACKET_ADD_MEMBERSHIP, &all, sizeof all);
    setsockopt(port, SOL_PACKET, PACKET_IGNORE_OUTGOING, &yes, sizeof yes);
    setsockopt(port, SOL_SOCKET, SO_RCVBUFFORCE, &much, sizeof much);
    setsockopt(port, SOL_SOCKET, SO_SNDBUFFORCE, &much, sizeof much);
    return port;
}

static int place_of(const unsigned char *address) {
    int at = 0;
    while (at < known && memcmp(addresses[at], address, 6)) at++;
    return at;
}

static void take(int port, int from, long long hold) {
    static unsigned char bytes[LONGEST];
    ssize_t length;
    for (int count = 0; count < AT_ONCE && (length = recv(port, bytes, sizeof bytes, MSG_DONTWAIT)) > 0; count++) {
        if (after - first == WAITING) continue;
        struct frame *frame = &waiting[after++ % WAITING];
        *frame = (struct frame){now() + hold, from, length, memcpy(malloc(length), bytes, length)};
        int at = place_of(bytes + 6);
        if (at == KNOWN) continue;
        if (at == known) memcpy(addresses[known++], bytes + 6, 6);
        places[at] = from;
    }
}

static void pass_on(const int *ports, int count) {
    struct frame *frame = &waiting[first++ % WAITING];
    int at = place_of(frame->bytes);
    for (int to = 0; to < count; to++)
        if (to != frame->from && (at == known || places[at] == to))
            while (send(ports[to], frame->bytes, frame->length, 0) < 0 && errno == EAGAIN) ;
    free(frame->bytes);
}

int main(int argc, char **argv) {
    long long hold = atoll(argv[1]) * 1000;
    int ports[PORTS], count = argc - 2;
    struct pollfd polled[PORTS];
    for (int at = 0; at < count; at++) {
        ports[at] = opened(argv[at + 2]);
        polled[at] = (struct pollfd){.fd = ports[at], .events = POLLIN};
    }
    for (;;) {
        long long left = first == after ? 1000000000 : waiting[first % WAITING].due - now();
        struct timespec wait = {0, left < 0 ? 0 : left > 999999999 ? 999999999 : left};
        ppoll(polled, count, &wait, 0);
        for (int at = 0; at < count; at++) take(ports[at], at, hold);
        while (first != after && waiting[first % WAITING].due <= now()) pass_on(ports, count);
    }
}
