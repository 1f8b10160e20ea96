/* Decides on the packets of 64 bytes on standard input, COUNT times, by libpcap's interpreter, and
   prints how many it takes. Without an expression the loop counts packets with an even last byte.

       peer EXPRESSION COUNT */
#include <pcap/pcap.h>
#include <stdio.h>
#include <stdlib.h>

enum { SIZE = 64, ROOM = 1 << 20 };

static unsigned char packets[ROOM];

/* Returns the number of packets that the program takes. */
static unsigned long passed(const struct bpf_insn *program, size_t length)
{
    unsigned long count = 0;
    for (size_t at = 0; at + SIZE <= length; at += SIZE)
        if (bpf_filter(program, packets + at, SIZE, SIZE))
            count++;
    return count;
}

/* Returns the number of packets with an even last byte. */
static unsigned long even(size_t length)
{
    unsigned long count = 0;
    for (size_t at = 0; at + SIZE <= length; at += SIZE)
        if (packets[at + SIZE - 1] % 2 == 0)
            count++;
    return count;
}

int main(int count, char **words)
{
    struct bpf_program program = {0};
    unsigned long sum = 0;
    if (count != 3)
        return 2;
    size_t length = fread(packets, 1, ROOM, stdin);
    pcap_t *dead = pcap_open_dead(DLT_IPV4, 65535);
    if (*words[1] && pcap_compile(dead, &program, words[1], 1, PCAP_NETMASK_UNKNOWN)) {
        fprintf(stderr, "peer: %s\n", pcap_geterr(dead));
        return 1;
    }
    for (long times = atol(words[2]); times > 0; times--)
        sum += *words[1] ? passed(program.bf_insns, length) : even(length);
    printf("%lu\n", sum);
    return 0;
}
