/* Eight threads on one machine: each answer is the one that a single thread got. */
#include <pthread.h>
#include <stdio.h>
#include <string.h>
#include "tiling.h"

enum { TILES = 4000, THREADS = 8, ROUNDS = 10 };

static tiling_machine machine;
static tiling_tile tiles[TILES], window_tiles[TILES];
static tiling_address addrs[TILES];
static size_t many;
static tiling_frame frame;
static tiling_window window = {{0, 0, 0, 0}, 30, 30};
static int wrong;

static void expect(int right) {
    if (!right) __sync_fetch_and_add(&wrong, 1);
}

/* crosses each edge of a tile and comes back */
static void cross_and_back(const tiling_address *addr) {
    for (uint8_t edge = 0; edge < 3; edge++) {
        tiling_address there = *addr;
        uint8_t back, home, part;
        if (tiling_neighbour(machine, &there, edge, &back, &part)) continue;
        expect(tiling_neighbour(machine, &there, back, &home, &part) == TILING_OK && home == edge);
        expect(there.kind == addr->kind && there.depth == addr->depth
               && memcmp(there.digits, addr->digits, 2 * addr->depth) == 0);
    }
}

static void *work(void *none) {
    static const char name[] = {'p', '3'};
    tiling_machine own;
    tiling_tile own_tile;
    tiling_address own_addr;
    for (int round = 0; round < ROUNDS; round++)
        for (size_t i = 0; i < many; i++) {
            tiling_tile tile;
            expect(tiling_place(machine, &addrs[i], &tile) == TILING_OK
                   && memcmp(&tile, &tiles[i], sizeof tile) == 0);
            cross_and_back(&addrs[i]);
        }
    expect(tiling_open(name, sizeof name, &own) == TILING_OK);
    size_t count = 0;
    expect(tiling_cover(machine, &frame, &window, &own_tile, 0, &own_addr, 0, &count) == TILING_OK
           && count == many);
    return none;
}

int main(void) {
    static const char name[] = {'p', '3'};
    pthread_t threads[THREADS];
    size_t count = 0;
    frame.seed = 42;
    if (tiling_open(name, sizeof name, &machine)) return 2;
    if (tiling_cover(machine, &frame, &window, window_tiles, TILES, addrs, TILES, &count)
           || count > TILES) return 2;
    many = count;
    for (size_t i = 0; i < many; i++) expect(tiling_place(machine, &addrs[i], &tiles[i]) == TILING_OK);
    for (int i = 0; i < THREADS; i++)
        if (pthread_create(&threads[i], NULL, work, NULL)) return 2;
    for (int i = 0; i < THREADS; i++) pthread_join(threads[i], NULL);
    printf("%zu tiles, %d wrong\n", many, wrong);
    return wrong != 0 || many < 1000;
}
