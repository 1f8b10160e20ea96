// Sends packets through a forwarder between two UDP links, and measures it. HERE and OTHER_HERE are
// the ports of the forwarder, THERE and OTHER_THERE those of this program.
//
//   load HERE THERE OTHER_HERE OTHER_THERE rate SIZE SECONDS WINDOW
//       prints the packets per second that come out with WINDOW packets in transit, how many were
//       lost, and how many came out in all
//   load HERE THERE OTHER_HERE OTHER_THERE trip SIZE COUNT
//       prints the microseconds of a round trip, with one packet per millisecond: the median and
//       the 99th percentile
//
// The exit status is 1 if a packet comes that was not sent, or most packets are lost.
#define _GNU_SOURCE
#include <arpa/inet.h>
#include <stdio.h>
#include <stdlib.h>
#include <string.h>
#include <sys/socket.h>
#include <time.h>
#include <unistd.h>

enum { AT_ONCE = 32, MOST_BYTES = 2048 };

static struct sockaddr_in at(int port) {
    return (struct sockaddr_in){.sin_family = AF_INET, .sin_port = htons(port), .sin_addr.s_addr = htonl(INADDR_LOOPBACK)};
}

static void wrong(const char *what) {
    fprintf(stderr, "load: %s\n", what);
    exit(1);
}

// Returns a socket with this port and this peer. A read waits at most a fifth of a second.
static int joined(int ours, int theirs) {
    struct sockaddr_in here = at(ours), there = at(theirs);
    struct timeval wait = {.tv_usec = 200000};
    int room = 4 << 20, it = socket(AF_INET, SOCK_DGRAM, 0);
    if (setsockopt(it, SOL_SOCKET, SO_RCVBUFFORCE, &room, sizeof room)) setsockopt(it, SOL_SOCKET, SO_RCVBUF, &room, sizeof room);
    setsockopt(it, SOL_SOCKET, SO_RCVTIMEO, &wait, sizeof wait);
    if (bind(it, (struct sockaddr *)&here, sizeof here) || connect(it, (struct sockaddr *)&there, sizeof there)) wrong("a port");
    return it;
}

static double now(void) {
    struct timespec t;
    clock_gettime(CLOCK_MONOTONIC, &t);
    return t.tv_sec + t.tv_nsec / 1e9;
}

static unsigned char bytes[AT_ONCE][MOST_BYTES];
static struct iovec pieces[AT_ONCE];
static struct mmsghdr packets[AT_ONCE];

// Sends up to `count` packets, with numbers from `next` on, and returns how many were sent.
static int give(int to, size_t size, unsigned long next, int count) {
    for (int k = 0; k < count; k++) {
        unsigned long number = next + k;
        memcpy(bytes[k], &number, sizeof number);
        pieces[k].iov_len = size;
    }
    int sent = sendmmsg(to, packets, count, 0);
    return sent < 0 ? 0 : sent;
}

// Receives the packets that are there, and waits for the first one. Returns their number, or 0 if
// none comes in time. Each number has to be less than `next` and, because the order is kept, at
// least `*least`.
static int take(int from, size_t size, unsigned long next, unsigned long *least) {
    for (int k = 0; k < AT_ONCE; k++) pieces[k].iov_len = MOST_BYTES;
    int came = recvmmsg(from, packets, AT_ONCE, MSG_WAITFORONE, NULL);
    for (int k = 0; k < came; k++) {
        unsigned long number;
        memcpy(&number, bytes[k], sizeof number);
        if (packets[k].msg_len != size || number < *least || number >= next) wrong("a packet that was not sent");
        *least = number + 1;
    }
    return came < 0 ? 0 : came;
}

static void rate(int one, int other, size_t size, double seconds, int window) {
    unsigned long next = 0, least = 0, came = 0, before = 0;
    double began = now(), counted = 0;
    for (;;) {
        double at = now();
        // The first fifth of a second is not counted.
        if (!counted && at - began > 0.2) counted = at, before = came;
        if (counted && at - counted > seconds) break;
        // The packets in transit are those between the last that came and the last that was sent.
        int room = window - (int)(next - least);
        if (room >= AT_ONCE / 2) next += give(one, size, next, room < AT_ONCE ? room : AT_ONCE);
        int n = take(other, size, next, &least);
        came += n;
        if (n == 0) least = next; // After a fifth of a second, all packets in transit are lost.
    }
    if (came < next / 2) wrong("most packets are lost");
    printf("%.0f %lu %lu\n", (came - before) / (now() - counted), least - came, came);
}

static int later(const void *a, const void *b) { return (*(double *)a > *(double *)b) - (*(double *)a < *(double *)b); }

static void trip(int one, int other, size_t size, int count) {
    double *took = calloc(count, sizeof *took);
    unsigned long least_there = 0, least_back = 0;
    for (int k = 0; k < count; k++) {
        usleep(1000);
        double began = now();
        give(one, size, k, 1);
        if (take(other, size, k + 1, &least_there) != 1) wrong("a packet is lost");
        give(other, size, k, 1);
        if (take(one, size, k + 1, &least_back) != 1) wrong("a packet is lost on its way back");
        took[k] = (now() - began) * 1e6;
    }
    qsort(took, count, sizeof *took, later);
    printf("%.1f %.1f\n", took[count / 2], took[count * 99 / 100]);
}

int main(int count, char **words) {
    if (count < 8) wrong("load HERE THERE OTHER_HERE OTHER_THERE rate SIZE SECONDS WINDOW, or trip SIZE COUNT");
    int one = joined(atoi(words[2]), atoi(words[1])), other = joined(atoi(words[4]), atoi(words[3]));
    size_t size = atoi(words[6]);
    for (int k = 0; k < AT_ONCE; k++) {
        pieces[k].iov_base = bytes[k];
        packets[k].msg_hdr = (struct msghdr){.msg_iov = &pieces[k], .msg_iovlen = 1};
    }
    if (!strcmp(words[5], "rate") && count == 9) rate(one, other, size, atof(words[7]), atoi(words[8]));
    else if (!strcmp(words[5], "trip")) trip(one, other, size, atoi(words[7]));
    else wrong("neither rate nor trip");
    return 0;
}
