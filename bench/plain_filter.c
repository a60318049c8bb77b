/*
 * Runs libpcap's bpf_filter on one packet, many times, and prints the sum of the verdicts. bench/filters.py counts its instructions.
 *
 *     plain_filter PROGRAM.ddd PACKET_IN_HEX TIMES
 */
#include <pcap/pcap.h>
#include <stdio.h>
#include <stdlib.h>
#include <string.h>

int main(int argc, char **argv)
{
    FILE *text = argc == 4 ? fopen(argv[1], "r") : NULL;
    unsigned count, code, jt, jf, k;
    if (!text || fscanf(text, "%u", &count) != 1)
        return 2;
    struct bpf_insn *program = calloc(count, sizeof *program);
    for (unsigned at = 0; at < count; at++) {
        if (fscanf(text, "%u %u %u %u", &code, &jt, &jf, &k) != 4)
            return 2;
        program[at] = (struct bpf_insn){code, jt, jf, k};
    }
    unsigned length = strlen(argv[2]) / 2;
    unsigned char *packet = malloc(length);
    for (unsigned at = 0; at < length; at++)
        if (sscanf(argv[2] + 2 * at, "%2hhx", packet + at) != 1)
            return 2;
    unsigned long long sum = 0;
    for (long left = atol(argv[3]); left > 0; left--)
        sum += bpf_filter(program, packet, length, length);
    printf("%llu\n", sum);
    return 0;
}
