/* The measure of bench/run.py: what `ringtap replay` does with an empty schedule, as a plain C program does it with arrays.
 *
 *     plain_ring IN.pcap PREFIX BLOCK_SIZE BLOCK_NR MEMBERS [key HEX] [filter FILE] [defrag] [records] [cpus N [threads]]
 *
 * It reads a little-endian capture in microseconds in pieces of 64 KiB, takes VLAN tags out, puts IPv4 fragments together
 * where asked, runs a filter, chooses a member by flow hash where there is a key (else member 0), and writes each frame into
 * the member's ring of TPACKET_V3 blocks, which nobody reads until the capture has ended. Then it walks the retired blocks
 * and saves PREFIX.M.pcap in nanoseconds. It keeps no note, no log and no statistics but three counts, and proves nothing.
 *
 * With `records` it keeps what the report of a replay holds of each frame: the log's entry of its arrival, the note of its offer
 * with its bytes, and the packet that was read with its bytes, from which the output is then made. A block is freed once it is read.
 *
 * With `cpus N` it reads the capture N times, each time for members of its own, one after the other or, with `threads`, each on a
 * thread, which shares nothing with the others. All is saved by one thread at the end. */
#include <pthread.h>
#include <stdint.h>
#include <stdio.h>
#include <stdlib.h>
#include <string.h>

enum { PIECE = 65536, DESCRIPTOR = 48, MAC = 82, NET = 96, MOST_CPUS = 8, MOST_MEMBERS = 8, MOST_DATAGRAMS = 64, MOST_CODES = 4096 };

static void fail(const char *why) { fprintf(stderr, "plain_ring: %s\n", why); exit(1); }
static uint16_t be16(const uint8_t *at) { return (uint16_t)(at[0] << 8 | at[1]); }
static uint32_t be32(const uint8_t *at) { return (uint32_t)be16(at) << 16 | be16(at + 2); }
static uint32_t le32(const uint8_t *at) { uint32_t x; memcpy(&x, at, 4); return x; }
static void put32(uint8_t *at, uint32_t x) { memcpy(at, &x, 4); }
static void put16(uint8_t *at, uint16_t x) { memcpy(at, &x, 2); }

/* ---- frames */

struct frame { uint32_t sec, nsec, wire, length; const uint8_t *bytes; uint32_t tag; };

/* A tag of the types 0x8100 and 0x88a8 leaves the frame; its place is closed by moving the two addresses. */
static void untag(struct frame *f, uint8_t *bytes)
{
    f->tag = 0;
    if (f->length < 18) return;
    uint16_t type = be16(bytes + 12);
    if (type != 0x8100 && type != 0x88a8) return;
    f->tag = (uint32_t)type << 16 | be16(bytes + 14);
    memmove(bytes + 4, bytes, 12);
    f->bytes = bytes + 4;
    f->length -= 4;
    f->wire -= 4;
}

/* ---- the flow hash, by a table of one row for each place of the input */

static uint32_t rows[36][256];
static int has_key;

static void set_key(const char *hex)
{
    uint8_t key[40];
    if (strlen(hex) != 80) fail("a key has 40 bytes");
    for (int i = 0; i < 40; i++) { unsigned x; sscanf(hex + 2 * i, "%2x", &x); key[i] = (uint8_t)x; }
    for (int i = 0; i < 36; i++)
        for (int byte = 0; byte < 256; byte++)
            for (int bit = 0; bit < 8; bit++)
                if (byte & 0x80 >> bit) {
                    uint64_t window = (uint64_t)be32(key + i) << 8 | key[i + 4];
                    rows[i][byte] ^= (uint32_t)(window >> (8 - bit));
                }
    has_key = 1;
}

static uint32_t toeplitz(const uint8_t *input, int length)
{
    uint32_t hash = 0;
    for (int i = 0; i < length; i++) hash ^= rows[i][input[i]];
    return hash;
}

/* The smaller end, by address and then port, comes first. */
static uint32_t hash_ends(const uint8_t *from, const uint8_t *to, int size, const uint8_t *ports)
{
    uint8_t input[36];
    int order = memcmp(from, to, (size_t)size);
    if (order == 0 && ports) order = memcmp(ports, ports + 2, 2);
    const uint8_t *first = order <= 0 ? from : to, *second = order <= 0 ? to : from;
    memcpy(input, first, (size_t)size);
    memcpy(input + size, second, (size_t)size);
    if (!ports) return toeplitz(input, 2 * size);
    memcpy(input + 2 * size, order <= 0 ? ports : ports + 2, 2);
    memcpy(input + 2 * size + 2, order <= 0 ? ports + 2 : ports, 2);
    return toeplitz(input, 2 * size + 4);
}

static int is_v4(const struct frame *f)
{
    const uint8_t *b = f->bytes;
    if (f->length < 34 || be16(b + 12) != 0x0800 || b[14] >> 4 != 4) return 0;
    uint32_t header = 4u * (b[14] & 15);
    return header >= 20 && f->length >= 14 + header && be16(b + 16) >= header;
}

static uint32_t flow_hash(const struct frame *f)
{
    const uint8_t *b = f->bytes;
    if (is_v4(f)) {
        uint32_t header = 4u * (b[14] & 15);
        int ports = (b[23] == 6 || b[23] == 17) && !(be16(b + 20) & 0x3fff) && f->length >= 18 + header;
        return hash_ends(b + 26, b + 30, 4, ports ? b + 14 + header : NULL);
    }
    if (f->length >= 54 && be16(b + 12) == 0x86dd && b[14] >> 4 == 6) {
        int ports = (b[20] == 6 || b[20] == 17) && f->length >= 58;
        return hash_ends(b + 22, b + 38, 16, ports ? b + 54 : NULL);
    }
    return 0;
}

/* ---- the filter */

struct code { uint16_t op; uint8_t jt, jf; uint32_t k; };
static struct code codes[MOST_CODES];
static uint32_t code_count;

static void read_filter(const char *name)
{
    FILE *file = fopen(name, "r");
    if (!file || fscanf(file, "%u", &code_count) != 1 || code_count > MOST_CODES) fail("filter");
    for (uint32_t i = 0; i < code_count; i++)
        if (fscanf(file, "%hu %hhu %hhu %u", &codes[i].op, &codes[i].jt, &codes[i].jf, &codes[i].k) != 4) fail("filter");
    fclose(file);
}

static int load(const struct frame *f, uint64_t at, int size, uint32_t *to)
{
    if (at + (uint64_t)size > f->length) return 0;
    const uint8_t *b = f->bytes + at;
    *to = size == 4 ? be32(b) : size == 2 ? be16(b) : b[0];
    return 1;
}

/* The codes that tcpdump writes for common expressions; any other ends the program. */
static uint32_t verdict(const struct frame *f)
{
    if (!code_count) return UINT32_MAX;
    uint32_t a = 0, x = 0, memory[16] = {0};
    for (uint32_t at = 0; at < code_count; at++) {
        const struct code *c = &codes[at];
        uint32_t k = c->k;
        switch (c->op) {
        case 0x20: if (!load(f, k, 4, &a)) return 0; break;
        case 0x28: if (!load(f, k, 2, &a)) return 0; break;
        case 0x30: if (!load(f, k, 1, &a)) return 0; break;
        case 0x40: if (!load(f, (uint64_t)x + k, 4, &a)) return 0; break;
        case 0x48: if (!load(f, (uint64_t)x + k, 2, &a)) return 0; break;
        case 0x50: if (!load(f, (uint64_t)x + k, 1, &a)) return 0; break;
        case 0xb1: if (!load(f, k, 1, &x)) return 0; x = 4 * (x & 15); break;
        case 0x00: a = k; break;
        case 0x01: x = k; break;
        case 0x60: a = memory[k & 15]; break;
        case 0x61: x = memory[k & 15]; break;
        case 0x80: a = f->wire; break;
        case 0x02: memory[k & 15] = a; break;
        case 0x03: memory[k & 15] = x; break;
        case 0x04: a += k; break;
        case 0x0c: a += x; break;
        case 0x14: a -= k; break;
        case 0x44: a |= k; break;
        case 0x54: a &= k; break;
        case 0x64: a = k < 32 ? a << k : 0; break;
        case 0x74: a = k < 32 ? a >> k : 0; break;
        case 0x05: at += k; break;
        case 0x15: at += a == k ? c->jt : c->jf; break;
        case 0x25: at += a > k ? c->jt : c->jf; break;
        case 0x35: at += a >= k ? c->jt : c->jf; break;
        case 0x45: at += a & k ? c->jt : c->jf; break;
        case 0x1d: at += a == x ? c->jt : c->jf; break;
        case 0x06: return k;
        case 0x16: return a;
        case 0x07: x = a; break;
        case 0x87: a = x; break;
        default: fail("a code that this program doesn't know");
        }
    }
    return 0;
}

/* ---- reassembly: up to 64 datagrams, each with its fragments by offset */

struct fragment { uint32_t from, to; uint8_t *data; };
struct datagram {
    uint8_t name[11];
    uint32_t sec, end, sum, count, room, header, tag;
    uint8_t head[14 + 60];
    struct fragment *fragments;
};
static _Thread_local struct datagram held[MOST_DATAGRAMS];
static _Thread_local int held_count;
static int puts_together;

static void drop_datagram(int at)
{
    for (uint32_t i = 0; i < held[at].count; i++) free(held[at].fragments[i].data);
    free(held[at].fragments);
    memmove(&held[at], &held[at + 1], sizeof *held * (size_t)(held_count - at - 1));
    held_count--;
}

/* The whole datagram into `whole`, with the headers of its first fragment; its length. */
static uint32_t join(struct datagram *d, uint8_t *whole)
{
    memcpy(whole, d->head, 14 + d->header);
    put16(whole + 16, __builtin_bswap16((uint16_t)(d->header + d->end)));
    put16(whole + 20, __builtin_bswap16((uint16_t)(be16(whole + 20) & 0xc000)));
    put16(whole + 24, 0);
    uint32_t sum = 0;
    for (uint32_t i = 0; i < d->header; i += 2) sum += be16(whole + 14 + i);
    sum = (sum & 0xffff) + (sum >> 16);
    sum = (sum & 0xffff) + (sum >> 16);
    put16(whole + 24, __builtin_bswap16((uint16_t)~sum));
    for (uint32_t i = 0; i < d->count; i++)
        memcpy(whole + 14 + d->header + d->fragments[i].from, d->fragments[i].data, d->fragments[i].to - d->fragments[i].from);
    return 14 + d->header + d->end;
}

/* Whether a frame comes out: the frame itself, or the datagram that it completed, in `whole`. */
static int pass(struct frame *f, uint8_t *whole)
{
    if (!is_v4(f)) return 1;
    const uint8_t *b = f->bytes;
    uint32_t header = 4u * (b[14] & 15), total = be16(b + 16), more = be16(b + 20) & 0x2000;
    uint32_t from = 8u * (be16(b + 20) & 0x1fff), length = total - header, to = from + length;
    if (!(more || from) || f->length < 14 + total || !length || (more && length % 8) || to > 65475) return 1;
    for (int i = held_count - 1; i >= 0; i--)
        if (held[i].sec + 30 <= f->sec) drop_datagram(i);
    uint8_t name[11];
    memcpy(name, b + 26, 8); name[8] = b[23]; memcpy(name + 9, b + 18, 2);
    int at = 0;
    while (at < held_count && memcmp(held[at].name, name, 11)) at++;
    if (at == held_count) {
        if (held_count == MOST_DATAGRAMS) { drop_datagram(0); at--; }
        held[at] = (struct datagram){.sec = f->sec};
        memcpy(held[at].name, name, 11);
        held_count++;
    }
    struct datagram *d = &held[at];
    for (uint32_t i = 0; i < d->count; i++) {
        struct fragment *g = &d->fragments[i];
        int is_end = d->end && d->end == g->to;
        if (g->from == from && g->to == to && is_end == !more && !memcmp(g->data, b + 14 + header, length)) return 0;
        if ((from < g->to && g->from < to) || (!more && g->to > to)) { drop_datagram(at); return 0; }
    }
    if (d->end && (to > d->end || (!more && to != d->end))) { drop_datagram(at); return 0; }
    if (d->count == d->room) d->fragments = realloc(d->fragments, sizeof *d->fragments * (d->room = d->room ? 2 * d->room : 4));
    struct fragment *g = &d->fragments[d->count++];
    *g = (struct fragment){from, to, malloc(length)};
    memcpy(g->data, b + 14 + header, length);
    d->sum += length;
    if (!more) d->end = to;
    if (!from) { memcpy(d->head, b, 14 + header); d->header = header; d->tag = f->tag; }
    if (!d->end || d->sum != d->end) return 0;
    f->length = f->wire = join(d, whole);
    f->bytes = whole;
    f->tag = d->tag;
    drop_datagram(at);
    return 1;
}

/* ---- the records of a report, kept where asked: the fields of ringtap's public types */

enum found { NOT_ASKED, FREE, HELD };
enum fate { NONE, KEPT, DROPPED };
struct bytes { uint8_t *at; size_t length, room; };
struct tag { uint16_t tpid, tci, is_there; };
struct arrival { uint32_t index, has_ticket; uint64_t ticket; uint32_t hash, verdict, member; enum fate fate; void *more_tries; };
struct note {
    uint32_t cpu, index, sec, nsec, wire;
    struct bytes bytes;
    struct tag tag;
    uint32_t snap, hash;
    uint8_t type;
    enum found found;
    uint64_t number;
};
struct packet {
    uint32_t sec, nsec, wire, hash;
    uint16_t protocol;
    uint8_t type, from[6];
    struct bytes bytes;
    struct tag tag;
};
struct list { void *items; size_t count, room; };
static _Thread_local struct list arrivals_of_cpu;
static int keeps_records;

static void *push(struct list *list, size_t size)
{
    if (list->count == list->room) {
        list->room = list->room ? 2 * list->room : 4;
        if (!(list->items = realloc(list->items, size * list->room))) fail("memory");
    }
    return (uint8_t *)list->items + size * list->count++;
}

static struct bytes copy(const uint8_t *from, size_t length)
{
    struct bytes bytes = {malloc(length), length, length};
    if (!bytes.at) fail("memory");
    memcpy(bytes.at, from, length);
    return bytes;
}

static struct tag tag_of(uint32_t tag) { return (struct tag){(uint16_t)(tag >> 16), (uint16_t)tag, tag != 0}; }

/* ---- a member's ring: blocks that nobody reads until the end */

struct ring {
    uint8_t **blocks;
    uint64_t opened, drops;
    uint32_t at, last, packets, first_sec, first_nsec, last_sec, last_nsec;
    int is_frozen;
    struct list notes, read;
};
static _Thread_local struct ring *rings;
static uint32_t block_size, block_nr, members;

static void open_block(struct ring *r)
{
    uint8_t **block = &r->blocks[r->opened++ % block_nr];
    if (!*block && !(*block = calloc(1, block_size))) fail("memory");
    r->at = DESCRIPTOR;
    r->packets = 0;
}

static void retire(struct ring *r)
{
    uint8_t *b = r->blocks[(r->opened - 1) % block_nr];
    put32(b + r->last, 0);
    put32(b, 2); put32(b + 4, 48); put32(b + 8, r->drops ? 5 : 1); put32(b + 12, r->packets);
    put32(b + 16, DESCRIPTOR); put32(b + 20, r->at);
    memcpy(b + 24, &r->opened, 8);
    put32(b + 32, r->first_sec); put32(b + 36, r->first_nsec); put32(b + 40, r->last_sec); put32(b + 44, r->last_nsec);
}

static uint32_t snap_of(const struct frame *f, uint32_t keep)
{
    uint32_t snap = f->length < keep ? f->length : keep, most = block_size - DESCRIPTOR - MAC;
    return snap < most ? snap : most;
}

static uint8_t packet_type(const uint8_t *bytes) { return !memcmp(bytes, "\xff\xff\xff\xff\xff\xff", 6) ? 1 : bytes[0] & 1 ? 2 : 0; }

/* Whether the frame was kept. */
static int put(struct ring *r, const struct frame *f, uint32_t snap, uint32_t hash)
{
    uint32_t need = (MAC + snap + 7) / 8 * 8;
    if (r->is_frozen) { r->drops++; return 0; }
    if (r->at + need > block_size) {
        retire(r);
        if (r->opened == block_nr) { r->is_frozen = 1; r->drops++; return 0; }
        open_block(r);
    }
    uint8_t *p = r->blocks[(r->opened - 1) % block_nr] + r->at;
    memset(p, 0, MAC);
    put32(p, need); put32(p + 4, f->sec); put32(p + 8, f->nsec); put32(p + 12, snap); put32(p + 16, f->wire);
    put32(p + 20, f->tag ? 81 : 1); put16(p + 24, MAC); put16(p + 26, NET); put32(p + 28, hash);
    put32(p + 32, f->tag & 0xffff); put16(p + 36, (uint16_t)(f->tag >> 16));
    put16(p + 48, 17);
    uint16_t type = be16(f->bytes + 12);
    uint16_t protocol = type >= 0x600 ? type : f->length >= 16 && be16(f->bytes + 14) == 0xffff ? 1 : 4;
    put16(p + 50, __builtin_bswap16(protocol));
    put32(p + 52, 1); put16(p + 56, 1);
    p[58] = packet_type(f->bytes);
    p[59] = 6;
    memcpy(p + 60, f->bytes + 6, 6);
    memcpy(p + MAC, f->bytes, snap);
    memset(p + MAC + snap, 0, need - MAC - snap);
    if (!r->packets++) { r->first_sec = f->sec; r->first_nsec = f->nsec; }
    r->last_sec = f->sec; r->last_nsec = f->nsec;
    r->last = r->at;
    r->at += need;
    return 1;
}

/* The log's entry of an arrival, and the note of its offer where there was one. */
static void record(struct ring *r, const struct frame *f, uint32_t index, uint32_t verdict, uint32_t hash, enum fate fate, enum found found)
{
    struct arrival *arrival = push(&arrivals_of_cpu, sizeof *arrival);
    *arrival = (struct arrival){.index = index, .hash = hash, .verdict = verdict, .member = (uint32_t)(r - rings), .fate = fate};
    if (fate == NONE) return;
    struct note *note = push(&r->notes, sizeof *note);
    *note = (struct note){.index = index, .found = found, .number = r->opened, .snap = snap_of(f, verdict), .hash = hash};
    if (fate == DROPPED) return;
    note->sec = f->sec; note->nsec = f->nsec; note->wire = f->wire;
    note->bytes = copy(f->bytes, f->length);
    note->tag = tag_of(f->tag);
    note->type = packet_type(f->bytes);
}

/* One record of an output, after which the next one stands. */
static uint8_t *write_record(uint8_t *to, uint32_t sec, uint32_t nsec, uint32_t wire, uint32_t snap, struct tag tag, const uint8_t *bytes)
{
    uint32_t back = tag.is_there && snap >= 12, head = back ? 12 : 0;
    put32(to, sec); put32(to + 4, nsec); put32(to + 8, snap + (back ? 4 : 0)); put32(to + 12, wire + (tag.is_there ? 4 : 0));
    to += 16;
    memcpy(to, bytes, head); to += head;
    if (back) { put16(to, __builtin_bswap16(tag.tpid)); put16(to + 2, __builtin_bswap16(tag.tci)); to += 4; }
    memcpy(to, bytes + head, snap - head);
    return to + (snap - head);
}

static struct tag tag_in(const uint8_t *p)
{
    uint16_t tpid;
    memcpy(&tpid, p + 36, 2);
    return (struct tag){tpid, (uint16_t)le32(p + 32), le32(p + 20) == 81};
}

/* The blocks that are to be read once the capture has ended. */
static uint64_t finish(struct ring *r)
{
    if (!r->is_frozen && r->packets) retire(r);
    return r->is_frozen || r->packets ? r->opened : r->opened - 1;
}

/* Walks the retired blocks into the list of packets, and frees each. */
static void read_blocks(struct ring *r)
{
    uint64_t blocks = finish(r);
    for (uint64_t s = 0; s < blocks; s++) {
        uint8_t *b = r->blocks[s % block_nr];
        for (uint32_t i = 0, at = DESCRIPTOR; i < le32(b + 12); i++, at += le32(b + at)) {
            const uint8_t *p = b + at;
            struct packet *packet = push(&r->read, sizeof *packet);
            uint16_t protocol;
            memcpy(&protocol, p + 50, 2);
            *packet = (struct packet){.sec = le32(p + 4), .nsec = le32(p + 8), .wire = le32(p + 16), .hash = le32(p + 28),
                .protocol = __builtin_bswap16(protocol), .type = p[58], .bytes = copy(p + MAC, le32(p + 12)), .tag = tag_in(p)};
            memcpy(packet->from, p + 60, 6);
        }
        free(b);
    }
}

static const uint32_t header[6] = {0xa1b23c4d, 0x00040002, 0, 0, 262144, 1};

static uint8_t *begin(size_t size)
{
    uint8_t *out = malloc(size);
    if (!out) fail("memory");
    memcpy(out, header, 24);
    return out;
}

static void save(const char *name, const uint8_t *out, const uint8_t *to)
{
    FILE *file = fopen(name, "wb");
    if (!file || fwrite(out, 1, (size_t)(to - out), file) != (size_t)(to - out) || fclose(file)) fail("output");
}

/* Walks the retired blocks into an output file. */
static uint64_t save_blocks(struct ring *r, const char *name)
{
    uint64_t blocks = finish(r), kept = 0, size = 24;
    for (uint64_t s = 0; s < blocks; s++) {
        const uint8_t *b = r->blocks[s % block_nr];
        for (uint32_t i = 0, at = DESCRIPTOR; i < le32(b + 12); i++, at += le32(b + at)) size += 16 + le32(b + at + 12) + 4;
    }
    uint8_t *out = begin(size), *to = out + 24;
    for (uint64_t s = 0; s < blocks; s++) {
        const uint8_t *b = r->blocks[s % block_nr];
        for (uint32_t i = 0, at = DESCRIPTOR; i < le32(b + 12); i++, kept++) {
            const uint8_t *p = b + at;
            to = write_record(to, le32(p + 4), le32(p + 8), le32(p + 16), le32(p + 12), tag_in(p), p + MAC);
            at += le32(p);
        }
    }
    save(name, out, to);
    return kept;
}

/* Makes an output file of the packets that were read. */
static uint64_t save_packets(struct ring *r, const char *name)
{
    const struct packet *packets = r->read.items;
    uint64_t size = 24;
    for (size_t i = 0; i < r->read.count; i++) size += 16 + packets[i].bytes.length + 4;
    uint8_t *out = begin(size), *to = out + 24;
    for (size_t i = 0; i < r->read.count; i++) {
        const struct packet *p = &packets[i];
        to = write_record(to, p->sec, p->nsec, p->wire, (uint32_t)p->bytes.length, p->tag, p->bytes.at);
    }
    save(name, out, to);
    free(out);
    return r->read.count;
}

/* ---- the run of a CPU: what is its own belongs to the thread */

static _Thread_local uint64_t frames, arrivals, filtered;

static void deliver(struct frame f, uint8_t *bytes)
{
    static _Thread_local uint8_t whole[14 + 60 + 65536];
    frames++;
    untag(&f, bytes);
    if (puts_together && !pass(&f, whole)) return;
    if (f.length < 14) return;
    arrivals++;
    uint32_t hash = has_key ? flow_hash(&f) : 0, keep = verdict(&f);
    struct ring *r = &rings[hash % members];
    uint64_t opened = r->opened;
    enum fate fate = !keep ? NONE : put(r, &f, snap_of(&f, keep), hash) ? KEPT : DROPPED;
    filtered += fate == NONE;
    if (keeps_records) record(r, &f, (uint32_t)frames - 1, keep, hash, fate, fate == DROPPED ? HELD : r->opened != opened ? FREE : NOT_ASKED);
}

/* The records of a piece after what was left of the pieces before it; the number of bytes that are left. */
static size_t decode(uint8_t *bytes, size_t count)
{
    size_t at = 0;
    while (count - at >= 16) {
        uint32_t length = le32(bytes + at + 8), wire = le32(bytes + at + 12);
        if (length > 262144) fail("capture");
        if (count - at - 16 < length) break;
        struct frame f = {le32(bytes + at), le32(bytes + at + 4) * 1000, wire > length ? wire : length, length, bytes + at + 16, 0};
        deliver(f, bytes + at + 16);
        at += 16 + length;
    }
    memmove(bytes, bytes + at, count - at);
    return count - at;
}

struct run { const char *capture; struct ring *rings; uint64_t frames, arrivals, filtered; };

static void *run_cpu(void *of)
{
    static _Thread_local uint8_t bytes[PIECE + 262144 + 16];
    struct run *run = of;
    rings = run->rings;
    arrivals_of_cpu = (struct list){0};
    frames = arrivals = filtered = 0;
    held_count = 0;
    for (uint32_t m = 0; m < members; m++) {
        if (!(rings[m].blocks = calloc(block_nr, sizeof *rings[m].blocks))) fail("memory");
        open_block(&rings[m]);
    }
    FILE *in = fopen(run->capture, "rb");
    if (!in) fail("capture");
    setvbuf(in, NULL, _IONBF, 0);
    if (fread(bytes, 1, 24, in) != 24 || le32(bytes) != 0xa1b2c3d4) fail("capture");
    size_t left = 0, got;
    while ((got = fread(bytes + left, 1, PIECE, in)) > 0) left = decode(bytes, left + got);
    fclose(in);
    for (uint32_t m = 0; keeps_records && m < members; m++) read_blocks(&rings[m]);
    *run = (struct run){run->capture, rings, frames, arrivals, filtered};
    return NULL;
}

static void run_all(struct run *runs, uint32_t cpus, int has_threads)
{
    pthread_t threads[MOST_CPUS];
    for (uint32_t c = 0; c < cpus; c++)
        if (!has_threads) run_cpu(&runs[c]);
        else if (pthread_create(&threads[c], NULL, run_cpu, &runs[c])) fail("thread");
    for (uint32_t c = 0; has_threads && c < cpus; c++) pthread_join(threads[c], NULL);
}

int main(int count, char **words)
{
    if (count < 6) fail("usage: IN PREFIX BLOCK_SIZE BLOCK_NR MEMBERS [key HEX] [filter FILE] [defrag] [records] [cpus N [threads]]");
    uint32_t cpus = 1;
    int has_threads = 0;
    block_size = (uint32_t)atoi(words[3]); block_nr = (uint32_t)atoi(words[4]); members = (uint32_t)atoi(words[5]);
    for (int i = 6; i < count; i++)
        if (!strcmp(words[i], "key") && i + 1 < count) set_key(words[++i]);
        else if (!strcmp(words[i], "filter") && i + 1 < count) read_filter(words[++i]);
        else if (!strcmp(words[i], "defrag")) puts_together = 1;
        else if (!strcmp(words[i], "records")) keeps_records = 1;
        else if (!strcmp(words[i], "cpus") && i + 1 < count) cpus = (uint32_t)atoi(words[++i]);
        else if (!strcmp(words[i], "threads")) has_threads = 1;
        else fail("an unknown word");
    if (!members || members > MOST_MEMBERS || !cpus || cpus > MOST_CPUS) fail("members or CPUs");
    struct run runs[MOST_CPUS] = {0};
    for (uint32_t c = 0; c < cpus; c++)
        if (!(runs[c] = (struct run){words[1], calloc(members, sizeof *rings), 0, 0, 0}).rings) fail("memory");
    run_all(runs, cpus, has_threads);
    uint64_t kept = 0, drops = 0;
    struct run sum = {0};
    for (uint32_t c = 0; c < cpus; c++) {
        for (uint32_t m = 0; m < members; m++) {
            struct ring *r = &runs[c].rings[m];
            char name[4096];
            snprintf(name, sizeof name, "%s.%u.pcap", words[2], c * members + m);
            kept += keeps_records ? save_packets(r, name) : save_blocks(r, name);
            drops += r->drops;
        }
        sum.arrivals += runs[c].arrivals;
        sum.filtered += runs[c].filtered;
        printf("cpu %u frames %llu\n", c, (unsigned long long)runs[c].frames);
    }
    printf("total arrivals %llu filtered %llu kept %llu drops %llu\n", (unsigned long long)sum.arrivals,
           (unsigned long long)sum.filtered, (unsigned long long)kept, (unsigned long long)drops);
    return 0;
}
