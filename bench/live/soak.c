// Runs eight clients of a live router. Each of them repeatedly connects, makes up to 10,000 calls
// one after another, and leaves. One of them makes swaps between two configurations. At the end
// prints how many calls were answered. The exit status is 1 after the first wrong answer.
//
//   soak PORT CALLS_OF_EACH TEXT OTHER_TEXT
#include <arpa/inet.h>
#include <netinet/tcp.h>
#include <pthread.h>
#include <stdatomic.h>
#include <stdio.h>
#include <stdlib.h>
#include <string.h>
#include <unistd.h>

enum { CLIENTS = 8, CALLS_OF_A_SESSION = 10000, CALLS_BEFORE_A_SWAP = 2000 };

static int port;
static long calls;
static const char *texts[2];
static atomic_long answered, sessions, swaps;

static void wrong(const char *what) {
    fprintf(stderr, "soak: %s\n", what);
    exit(1);
}

// Reads a reply and checks its beginning. If it has a value, also reads the line with its length,
// and the value.
static void reply(FILE *peer, const char *wanted, int has_value) {
    char line[200];
    if (!fgets(line, sizeof line, peer) || strncmp(line, wanted, strlen(wanted))) wrong(line);
    if (!has_value) return;
    if (!fgets(line, sizeof line, peer) || strncmp(line, "DATA ", 5)) wrong(line);
    for (long left = atol(line + 5); left > 0; left--)
        if (fgetc(peer) == EOF) wrong("a value is incomplete");
}

static void ask(int socket, FILE *peer, const char *command, int has_value) {
    size_t length = strlen(command);
    if (write(socket, command, length) != (ssize_t)length) wrong("a write");
    reply(peer, "200", has_value);
    atomic_fetch_add(&answered, 1);
}

static void swap(int socket, FILE *peer) {
    char command[4096];
    const char *text = texts[(atomic_fetch_add(&swaps, 1) + 1) % 2];
    snprintf(command, sizeof command, "WRITEDATA hotconfig %zu\n%s", strlen(text), text);
    ask(socket, peer, command, 0);
}

static void session(long number, long count) {
    struct sockaddr_in address = {.sin_family = AF_INET, .sin_port = htons(port), .sin_addr.s_addr = htonl(INADDR_LOOPBACK)};
    int one = 1, peer_socket = socket(AF_INET, SOCK_STREAM, 0);
    if (connect(peer_socket, (struct sockaddr *)&address, sizeof address)) wrong("connect");
    setsockopt(peer_socket, IPPROTO_TCP, TCP_NODELAY, &one, sizeof one);
    FILE *peer = fdopen(peer_socket, "r");
    reply(peer, "Click::ControlSocket/1.3", 0);
    for (long at = 0; at < count; at++) {
        if (number == 0 && at % CALLS_BEFORE_A_SWAP == 0) swap(peer_socket, peer);
        else if (at % 10 < 7) ask(peer_socket, peer, "READ c.count\n", 1);
        else if (at % 10 < 9) ask(peer_socket, peer, at % 2 ? "WRITE s.switch 1\n" : "WRITE s.switch 0\n", 0);
        else ask(peer_socket, peer, "READ q.length\n", 1);
    }
    if (write(peer_socket, "QUIT\n", 5) != 5) wrong("a write");
    reply(peer, "200 Goodbye!", 0);
    fclose(peer);
    atomic_fetch_add(&sessions, 1);
}

static void *client(void *number) {
    for (long left = calls; left > 0; left -= CALLS_OF_A_SESSION) session((long)number, left < CALLS_OF_A_SESSION ? left : CALLS_OF_A_SESSION);
    return NULL;
}

int main(int count, char **words) {
    pthread_t threads[CLIENTS];
    if (count != 5) wrong("soak PORT CALLS_OF_EACH TEXT OTHER_TEXT");
    port = atoi(words[1]);
    calls = atol(words[2]);
    texts[0] = words[3];
    texts[1] = words[4];
    for (long at = 0; at < CLIENTS; at++) pthread_create(&threads[at], NULL, client, (void *)at);
    for (int at = 0; at < CLIENTS; at++) pthread_join(threads[at], NULL);
    printf("%ld calls answered in %ld sessions, %ld swaps among them\n", answered, sessions, swaps);
    return 0;
}
