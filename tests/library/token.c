/* The token of docs/EMBEDDING.md, whose functions `start` and `step` are in the file that EXAMPLE names: it walks 20,000 steps
 * across edges that a fixed rule chooses. On the way it is on the tile that the first frame has at its place, with the same
 * address: so the tiling stays the same. Then it goes back by the edges that lead back, and is on its first tile again, with
 * the picture turned as it was. Ends with 1 if it isn't so. */
#include <stdio.h>
#include <string.h>

#include EXAMPLE

enum { STEPS = 20000, ROOM = 400 };
static uint8_t backs[STEPS];
static tiling_tile tiles[ROOM];
static tiling_address addrs[ROOM];

/* A point times zeta, as docs/COORDINATES.md has it. */
static tiling_point turned(tiling_machine t, tiling_point p, int times) {
    for (; times > 0; times--) {
        int64_t a = p.c[0], b = p.c[1], c = p.c[2], d = p.c[3];
        switch (tiling_order(t)) {
        case 4: p = (tiling_point){{-b, a, 0, 0}}; break;
        case 6: p = (tiling_point){{-b, a + b, 0, 0}}; break;
        case 8: p = (tiling_point){{-d, a, b, c}}; break;
        default: p = (tiling_point){{-d, a + d, b - d, c + d}};
        }
    }
    return p;
}

static int is_same(const tiling_address *a, const tiling_address *b) {
    return a->kind == b->kind && a->depth == b->depth && !memcmp(a->digits, b->digits, 2 * (size_t)a->depth);
}

/* The edge that leads back from across an edge of the token's tile; the place moves there. */
static uint8_t edge_back(tiling_machine t, const token *it, uint8_t edge, tiling_point *place) {
    tiling_tile w[2];
    tiling_address to[2];
    tiling_point by;
    if (tiling_walk(t, &it->frame, 64, &edge, 1, w, 2, to, 2)) return 255;
    memcpy(by.c, w[1].shift, sizeof by.c);
    by = turned(t, by, it->turn);
    for (int i = 0; i < 4; i++) place->c[i] += by.c[i];
    return w[1].number;
}

/* Whether the first frame has the token's tile at this place, turned as the token says. */
static int is_there(tiling_machine t, const tiling_frame *first, const token *it, const tiling_point *place) {
    tiling_window window = {.w = 2, .h = 2};
    size_t count;
    memcpy(window.at, place->c, sizeof window.at);
    if (tiling_cover(t, first, &window, tiles, ROOM, addrs, ROOM, &count)) return 0;
    for (size_t i = 0; i < count; i++)
        if (!memcmp(tiles[i].shift, place->c, sizeof place->c) && tiles[i].turn == it->turn && is_same(&addrs[i], &it->frame.base))
            return 1;
    return 0;
}

static int returns(const char *rule) {
    tiling_machine t;
    token it;
    tiling_point place = {{0, 0, 0, 0}};
    uint8_t edges;
    uint32_t chosen = 1;
    if (tiling_open(rule, strlen(rule), &t) || start(t, 42, &it) || it.frame.base.depth != 64) return 0;
    tiling_frame first = it.frame;
    for (int i = 0; i < STEPS; i++) {
        if (tiling_edges(t, it.frame.base.kind, &edges)) return 0;
        chosen = chosen * 1664525 + 1013904223;
        uint8_t edge = (chosen >> 16) % edges;
        backs[i] = edge_back(t, &it, edge, &place);
        if (step(t, &it, edge)) return 0;
        if (i % 100 == 0 && !is_there(t, &first, &it, &place)) return 0;
    }
    for (int i = STEPS; i-- > 0;)
        if (step(t, &it, backs[i])) return 0;
    return it.turn == 0 && is_same(&it.frame.base, &first.base);
}

int main(void) {
    const char *rules[] = {"p3", "p2", "ab", "chair"};
    for (int i = 0; i < 4; i++)
        if (!returns(rules[i])) return printf("the token does not return in %s\n", rules[i]), 1;
    return 0;
}
