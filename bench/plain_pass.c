/* What ringsize answers for one member, in plain C with arrays: at each phase of the timer the
   blocks that a ring needs so that it never freezes, and the packets that a ring of some blocks
   drops, for a reader that takes all after each pause. The frames are those that
   bench/size_tables.py writes into a capture. Arguments: frames, time-out and pause in
   milliseconds, and blocks. */
#include <inttypes.h>
#include <stdint.h>
#include <stdio.h>
#include <stdlib.h>

#define MILLISECOND 1000000ull
#define ROOM (262144 - 48)
#define NEVER UINT64_MAX

struct arrival {
    uint64_t at;
    uint32_t need;
};

struct ring {
    uint64_t blocks, done, released, used, most, drops;
    int frozen;
};

/* Hands the open block over and looks for the next one. */
static void next_block(struct ring *ring)
{
    uint64_t held = ++ring->done + 1 - ring->released;
    if (held > ring->most)
        ring->most = held;
    ring->frozen = held > ring->blocks;
    ring->used = 0;
}

static void tick(struct ring *ring)
{
    if (ring->frozen)
        ring->frozen = ring->done + 1 - ring->released > ring->blocks;
    else if (ring->used)
        next_block(ring);
}

static void put(struct ring *ring, uint32_t need)
{
    if (ring->frozen)
        ring->frozen = ring->done + 1 - ring->released > ring->blocks;
    else if (ring->used + need > ROOM)
        next_block(ring);
    if (ring->frozen)
        ring->drops++;
    else
        ring->used += need;
}

/* What is asked, but for the phase: the frames, the time-out and the pause in milliseconds. */
struct asked {
    const struct arrival *arrivals;
    size_t count;
    uint64_t tov, pause;
};

static struct ring pass(const struct asked *asked, uint64_t blocks, uint64_t phase)
{
    uint64_t span = asked->tov * MILLISECOND, tick_at = span - phase * MILLISECOND, read_at = 0;
    struct ring ring = { .blocks = blocks, .most = 1 };

    for (size_t i = 0; i < asked->count; i++) {
        uint64_t at = asked->arrivals[i].at;
        while (tick_at <= at || read_at < at) {
            if (tick_at <= at && tick_at <= read_at) {
                tick(&ring);
                tick_at += span;
            } else {
                ring.released = ring.done;
                read_at += asked->pause * MILLISECOND;
            }
        }
        put(&ring, asked->arrivals[i].need);
    }
    return ring;
}

static struct arrival *make_arrivals(size_t count)
{
    struct arrival *arrivals = malloc(count * sizeof *arrivals);
    uint64_t state = 1, at = 0;
    for (size_t i = 0; arrivals && i < count; i++) {
        state = state * 6364136223846793005ull + 1442695040888963407ull;
        at += (state >> 32) % (2 * MILLISECOND);
        arrivals[i] = (struct arrival){ i ? at : 0, 96 + 8 * (uint32_t)((state >> 40) % 68) };
        at = arrivals[i].at;
    }
    return arrivals;
}

/* A number with the first phase at which it is reached. */
struct place {
    uint64_t number, phase;
};

static void print_answers(const struct asked *asked, uint64_t blocks)
{
    struct place need = { 0, 0 }, least = { NEVER, 0 }, most = { 0, 0 };
    for (uint64_t phase = 0; phase < asked->tov; phase++) {
        uint64_t here = pass(asked, NEVER, phase).most, drops = pass(asked, blocks, phase).drops;
        if (here > need.number)
            need = (struct place){ here, phase };
        if (drops < least.number)
            least = (struct place){ drops, phase };
        if (drops > most.number)
            most = (struct place){ drops, phase };
    }
    printf("member 0 blocks %" PRIu64 " phase %" PRIu64 " from 0\n", need.number, need.phase);
    printf("member 0 drops least %" PRIu64 " phase %" PRIu64 " from 0", least.number, least.phase);
    printf(" most %" PRIu64 " phase %" PRIu64 " from 0\n", most.number, most.phase);
}

int main(int argc, char **argv)
{
    if (argc != 5)
        return 1;
    size_t count = strtoull(argv[1], NULL, 10);
    struct arrival *arrivals = make_arrivals(count);
    if (!arrivals)
        return 1;
    struct asked asked = { arrivals, count, 0, 0 };
    asked.tov = strtoull(argv[2], NULL, 10);
    asked.pause = strtoull(argv[3], NULL, 10);
    print_answers(&asked, strtoull(argv[4], NULL, 10));
    free(arrivals);
    return 0;
}
