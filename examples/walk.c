// Reads a PREFIX.M.blk as a program reads a mapped ring: by <linux/if_packet.h> alone, with nothing of ringtap's.
//
//     cc -O2 -Wall -o walk walk.c && ./walk out.0.blk
//
// The retired blocks of TPACKET_V3 lie there one after another, each up to its blk_len; of a `ringtap replay2` the filled slots of TPACKET_V2,
// each up to the end of its frame. A line is printed for each block and each packet, as tools/blocks.py --short prints it, and sums at the end.
//
// The fields are in the order of bytes of the machine that had the ring. ringtap writes little-endian; so this is for such a machine.
#include <arpa/inet.h>
#include <fcntl.h>
#include <inttypes.h>
#include <linux/if_packet.h>
#include <stdio.h>
#include <stdlib.h>
#include <string.h>
#include <sys/mman.h>
#include <sys/stat.h>
#include <unistd.h>

struct name {
    uint32_t number;
    const char *word;
};

static const struct name flags[] = {
    {TP_STATUS_USER, "TP_STATUS_USER"},
    {TP_STATUS_COPY, "TP_STATUS_COPY"},
    {TP_STATUS_LOSING, "TP_STATUS_LOSING"},
    {TP_STATUS_CSUMNOTREADY, "TP_STATUS_CSUMNOTREADY"},
    {TP_STATUS_VLAN_VALID, "TP_STATUS_VLAN_VALID"},
    {TP_STATUS_BLK_TMO, "TP_STATUS_BLK_TMO"},
    {TP_STATUS_VLAN_TPID_VALID, "TP_STATUS_VLAN_TPID_VALID"},
    {TP_STATUS_CSUM_VALID, "TP_STATUS_CSUM_VALID"},
};

static const struct name types[] = {
    {PACKET_HOST, "PACKET_HOST"},
    {PACKET_BROADCAST, "PACKET_BROADCAST"},
    {PACKET_MULTICAST, "PACKET_MULTICAST"},
    {PACKET_OTHERHOST, "PACKET_OTHERHOST"},
};

static const struct name protocols[] = {
    {0x0001, "ETH_P_802_3"}, {0x0004, "ETH_P_802_2"}, {0x0800, "ETH_P_IP"},     {0x0806, "ETH_P_ARP"},
    {0x8100, "ETH_P_8021Q"}, {0x86dd, "ETH_P_IPV6"},  {0x88a8, "ETH_P_8021AD"}, {0x88cc, "ETH_P_LLDP"},
};

static uint64_t blocks, packets, bytes;

// Ends the program, with the byte of the file at which it can't go on.
static void wrong(const char *path, size_t place, const char *what) {
    fprintf(stderr, "%s, byte %zu: %s\n", path, place, what);
    exit(1);
}

// Prints a status, and its flags by their names.
static void print_status(const char *name, uint32_t status) {
    const char *between = "";
    printf("%s %" PRIu32 " (", name, status);
    for (size_t i = 0; i < sizeof flags / sizeof flags[0]; i++) {
        if (status & flags[i].number) {
            printf("%s%s", between, flags[i].word);
            between = " | ";
            status &= ~flags[i].number;
        }
    }
    if (status)
        printf("%s0x%" PRIx32, between, status);
    printf(")");
}

// Prints the name of a number in brackets, where it has one.
static void print_name(const struct name *names, size_t count, uint32_t number) {
    for (size_t i = 0; i < count; i++)
        if (names[i].number == number)
            printf(" (%s)", names[i].word);
}

#define PRINT_NAME(names, number) print_name(names, sizeof names / sizeof names[0], number)

static void print_tag(uint32_t tci, uint16_t tpid) {
    printf(", tp_vlan_tci %" PRIu32, tci);
    if (tci)
        printf(" (VLAN %" PRIu32 ", priority %" PRIu32 ")", tci & 0xfff, tci >> 13);
    printf(", tp_vlan_tpid 0x%04x", tpid);
    PRINT_NAME(protocols, tpid);
}

static void print_address(const struct sockaddr_ll *address) {
    uint16_t protocol = ntohs(address->sll_protocol);
    printf(", sll_protocol 0x%04x", protocol);
    PRINT_NAME(protocols, protocol);
    printf(", sll_pkttype %u", address->sll_pkttype);
    PRINT_NAME(types, address->sll_pkttype);
    printf(", sll_addr ");
    for (int i = 0; i < 8; i++)
        printf("%s%02x", i ? ":" : "", address->sll_addr[i]);
    printf("\n");
}

// The packets of a block: each says how far it is to the next one.
static void walk_packets(const char *path, const uint8_t *file, size_t start, uint32_t size) {
    const struct tpacket_hdr_v1 *head = &((const struct tpacket_block_desc *)(file + start))->hdr.bh1;
    uint32_t place = head->offset_to_first_pkt;
    for (uint32_t i = 1; i <= head->num_pkts; i++) {
        size_t at = start + place;
        if (place > size || size - place < TPACKET3_HDRLEN)
            wrong(path, at, "the block has no room for another packet");
        const struct tpacket3_hdr *packet = (const struct tpacket3_hdr *)(file + at);
        // The address follows the header, at a multiple of 16; the frame begins at tp_mac.
        const struct sockaddr_ll *address = (const struct sockaddr_ll *)(file + at + TPACKET_ALIGN(sizeof *packet));
        if (size - place < (uint64_t)packet->tp_mac + packet->tp_snaplen)
            wrong(path, at, "the packet's data goes past its block");
        printf("  packet %" PRIu32 " at byte %zu: tp_next_offset %u, time %u.%09u, tp_snaplen %u, tp_len %u, ", i, at,
               packet->tp_next_offset, packet->tp_sec, packet->tp_nsec, packet->tp_snaplen, packet->tp_len);
        print_status("tp_status", packet->tp_status);
        printf(", tp_mac %u, tp_net %u, tp_rxhash 0x%08x", packet->tp_mac, packet->tp_net, packet->hv1.tp_rxhash);
        print_tag(packet->hv1.tp_vlan_tci, packet->hv1.tp_vlan_tpid);
        print_address(address);
        packets++;
        bytes += packet->tp_snaplen;
        if (i < head->num_pkts && packet->tp_next_offset < TPACKET3_HDRLEN)
            wrong(path, at, "tp_next_offset leads nowhere");
        place += packet->tp_next_offset;
    }
}

// A block, and how many bytes it has. In a ring the status is read first, with acquire, and only where TP_STATUS_USER is set the rest;
// once the packets are read, TP_STATUS_KERNEL is stored there with release, and the block is the kernel's again.
static size_t walk_block(const char *path, const uint8_t *file, size_t start, size_t left) {
    const struct tpacket_block_desc *block = (const struct tpacket_block_desc *)(file + start);
    const struct tpacket_hdr_v1 *head = &block->hdr.bh1;
    if (left < sizeof *block || block->version != TPACKET_V3)
        wrong(path, start, "no block begins here");
    if (head->blk_len < sizeof *block || head->blk_len > left)
        wrong(path, start, "blk_len goes past the end of the file");
    printf("block %llu at byte %zu: ", (unsigned long long)head->seq_num, start);
    print_status("block_status", head->block_status);
    printf(", num_pkts %u, offset_to_first_pkt %u, blk_len %u, seq_num %llu", head->num_pkts, head->offset_to_first_pkt,
           head->blk_len, (unsigned long long)head->seq_num);
    printf(", ts_first_pkt %u.%09u, ts_last_pkt %u.%09u\n", head->ts_first_pkt.ts_sec, head->ts_first_pkt.ts_nsec,
           head->ts_last_pkt.ts_sec, head->ts_last_pkt.ts_nsec);
    walk_packets(path, file, start, head->blk_len);
    blocks++;
    return head->blk_len;
}

// A slot of TPACKET_V2, and how many bytes it has here; in a ring the next one is tp_frame_size further on, and each is aligned.
static size_t walk_slot(const char *path, const uint8_t *file, size_t start, size_t left) {
    struct tpacket2_hdr slot;
    struct sockaddr_ll address;
    if (left < TPACKET2_HDRLEN)
        wrong(path, start, "the slot is cut");
    memcpy(&slot, file + start, sizeof slot);
    memcpy(&address, file + start + TPACKET_ALIGN(sizeof slot), sizeof address);
    if (!(slot.tp_status & TP_STATUS_USER) || slot.tp_mac < TPACKET2_HDRLEN)
        wrong(path, start, "no filled slot begins here");
    if (left < (uint64_t)slot.tp_mac + slot.tp_snaplen)
        wrong(path, start, "the slot's data goes past the end of the file");
    printf("slot %" PRIu64 " at byte %zu: ", ++blocks, start);
    print_status("tp_status", slot.tp_status);
    printf(", tp_len %u, tp_snaplen %u, tp_mac %u, tp_net %u, time %u.%09u", slot.tp_len, slot.tp_snaplen, slot.tp_mac,
           slot.tp_net, slot.tp_sec, slot.tp_nsec);
    print_tag(slot.tp_vlan_tci, slot.tp_vlan_tpid);
    print_address(&address);
    packets++;
    bytes += slot.tp_snaplen;
    return slot.tp_mac + slot.tp_snaplen;
}

// Walks a file in memory. A block begins with its version, 2; a slot with its status, which isn't 2.
static void walk(const char *path, const uint8_t *file, size_t size) {
    int is_blocks = size < sizeof(uint32_t) || *(const uint32_t *)file == TPACKET_V3;
    for (size_t place = 0; place < size;)
        place += (is_blocks ? walk_block : walk_slot)(path, file, place, size - place);
    printf("%" PRIu64 " %s, %" PRIu64 " packets, %" PRIu64 " bytes of them kept\n", blocks, is_blocks ? "blocks" : "slots", packets, bytes);
}

int main(int count, char **words) {
    struct stat about;
    int file = count == 2 ? open(words[1], O_RDONLY) : -1;
    if (file < 0 || fstat(file, &about)) {
        if (count == 2)
            perror(words[1]);
        else
            fprintf(stderr, "usage: walk FILE.blk\n");
        return 1;
    }
    size_t size = about.st_size;
    const uint8_t *memory = size ? mmap(NULL, size, PROT_READ, MAP_PRIVATE, file, 0) : (const uint8_t *)"";
    if (memory == MAP_FAILED) {
        perror(words[1]);
        return 1;
    }
    walk(words[1], memory, size);
    return 0;
}
