/* Hostile numbers: nothing crashes, each status is one of the header's, and what is refused is as it was.
 * Each value lies in a heap block of just its size, so that a sanitizer or valgrind sees each byte beyond
 * it that is read or written.
 *
 * hostile ROUNDS: so many rounds; prints how often each status came. */
#include <stdio.h>
#include <stdlib.h>
#include <string.h>
#include "tiling.h"

static uint64_t state = 88172645463325252u;

static uint64_t any(void) {
    state ^= state << 13;
    state ^= state >> 7;
    state ^= state << 17;
    return state;
}

static unsigned long seen[256];

/* counts a status; only those of the header come */
static void count(int status) {
    static const uint8_t known[] = {0, 1, 2, 3, 4, 5, 6, 7, 8, 11, 12, 13, 15, 16, 17};
    seen[status]++;
    if (!memchr(known, status, sizeof known)) {
        fprintf(stderr, "hostile: status %d\n", status);
        exit(1);
    }
}

static void same(const void *a, const void *b, size_t bytes, const char *call) {
    if (memcmp(a, b, bytes) == 0) return;
    fprintf(stderr, "hostile: %s changed what it refused\n", call);
    exit(1);
}

static void *block(size_t bytes) {
    void *place = malloc(bytes ? bytes : 1);
    if (!place) exit(2);
    return place;
}

static void fill(void *place, size_t bytes) {
    for (size_t i = 0; i < bytes; i++) ((uint8_t *)place)[i] = any();
}

/* an address that now and then names a tile */
static void fill_address(tiling_address *addr) {
    for (size_t i = 0; i < sizeof *addr; i++) ((uint8_t *)addr)[i] = any() % 7 ? any() % 5 : any();
    if (any() % 2) addr->depth = any() % 70;
    if (any() % 4) addr->kind = any() % 4;
}

static void try_tile(tiling_machine machine) {
    tiling_address *addr = block(sizeof *addr), before;
    tiling_tile *tile = block(sizeof *tile), kept;
    uint8_t *back = block(1), *part = block(1);
    int status;
    fill_address(addr);
    fill(tile, sizeof *tile);
    before = *addr;
    kept = *tile;
    count(status = tiling_place(machine, addr, tile));
    same(addr, &before, sizeof before, "tiling_place");
    if (status) same(tile, &kept, sizeof kept, "tiling_place");
    if ((status == TILING_BAD_ADDRESS) != (tiling_fits(machine, addr) == TILING_BAD_ADDRESS)) exit(1);
    *back = 9;
    *part = 8;
    count(status = tiling_neighbour(machine, addr, any() % 5 ? any() % 4 : any(), back, part));
    if (status) same(addr, &before, sizeof before, "tiling_neighbour");
    if (status && status != TILING_OUTSIDE && (*back != 9 || *part != 8)) exit(1);
    free(addr);
    free(tile);
    free(back);
    free(part);
}

static void try_text(tiling_machine machine) {
    size_t length = any() % 40, room = any() % 600, *bytes = block(sizeof *bytes);
    char *text = block(length), *written = block(room);
    tiling_address *addr = block(sizeof *addr);
    int status;
    for (size_t i = 0; i < length; i++) text[i] = any() % 50 ? "0123456789:/,, "[any() % 15] : (char)any();
    fill(addr, sizeof *addr);
    count(tiling_read_address(machine, text, length, addr));
    count(status = tiling_write_address(addr, written, room, bytes));
    if (status == TILING_OK && *bytes > room) exit(1);
    tiling_machine *slot = block(sizeof *slot);
    count(tiling_open(text, length, slot));
    memset(written, 7, room);
    count(status = tiling_open_file((const uint8_t *)text, length, slot, written, room, bytes));
    if (status != TILING_RULE_REFUSED || (*bytes < room && written[*bytes] != 7)) exit(1);
    free(slot);
    free(text);
    free(written);
    free(addr);
    free(bytes);
}

static void try_window(tiling_machine machine) {
    size_t room = any() % 40, others = any() % 3 ? room : any() % 2 ? 0 : any() % 40;
    size_t *number = block(sizeof *number);
    tiling_frame *frame = block(sizeof *frame);
    tiling_window *window = block(sizeof *window);
    tiling_tile *tiles = block(room * sizeof *tiles), *kept = block(room * sizeof *kept);
    tiling_address *addrs = block(others * sizeof *addrs);
    int status;
    fill(frame, sizeof *frame);
    fill_address(&frame->base);
    if (any() % 2) frame->base.kind = any() % 3, frame->base.depth = 0;
    fill(window, sizeof *window);
    int64_t reach = any() % 3 ? 1000 : 1048580;
    for (int i = 0; i < 4; i++)
        if (any() % 64) window->at[i] = (int64_t)(any() % (2 * reach)) - reach;
    if (any() % 8) window->w = any() % 20;
    if (any() % 8) window->h = any() % 20;
    fill(tiles, room * sizeof *tiles);
    fill(addrs, others * sizeof *addrs);
    memcpy(kept, tiles, room * sizeof *tiles);
    count(status = tiling_cover(machine, frame, window, tiles, room, addrs, others, number));
    if (status) same(tiles, kept, room * sizeof *tiles, "tiling_cover");
    uint8_t *flags = block(room);
    size_t found = status ? 0 : *number < room ? *number : room;
    if (!status && tiling_meets_all(machine, tiles, found, window, flags, found)) exit(1);
    for (size_t i = 0; i < found; i++) if (flags[i] != 1) exit(1);
    free(flags);
    size_t held = status || !others ? any() % (others + 1) : *number < room ? *number : room, index = 7777;
    uint8_t fault = 99;
    held = held < room ? held : room;
    if (held && any() % 3 == 0) ((uint8_t *)tiles)[any() % (held * sizeof *tiles)] = any();
    if (held && any() % 3 == 0) ((uint8_t *)addrs)[any() % (held * sizeof *addrs)] = any();
    count(status = tiling_verify(machine, frame, window, tiles, held, addrs, held, &fault, &index));
    if (status == TILING_BAD_LISTING ? fault < 1 || fault > 6 || (index && index >= held)
                                     : fault != 99 || index != 7777) exit(1);
    tiling_whole_tile *wholes = block(room * sizeof *wholes), *before = block(room * sizeof *before);
    fill(wholes, room * sizeof *wholes);
    memcpy(before, wholes, room * sizeof *wholes);
    count(status = tiling_glue(machine, frame, window, wholes, room, number));
    if (status) same(wholes, before, room * sizeof *wholes, "tiling_glue");
    free(wholes);
    free(before);
    free(frame);
    free(window);
    free(tiles);
    free(kept);
    free(addrs);
    free(number);
}

/* the numbers of a rule, in a block of their own; those behind its lists are 0 */
static void try_rule(tiling_machine machine) {
    tiling_rule_numbers *rule = block(sizeof *rule);
    static const tiling_kind no_kind;
    fill(rule, sizeof *rule);
    tiling_rule(machine, rule);
    if (rule->order != tiling_order(machine) || rule->kind_count != tiling_kinds(machine)) exit(1);
    const tiling_kind *last = &rule->kinds[15];
    same(last->children, no_kind.children, sizeof no_kind.children, "tiling_rule");
    same(last->edges, no_kind.edges, sizeof no_kind.edges, "tiling_rule");
    free(rule);
}

static int64_t coefficient(int64_t reach) {
    return any() % 64 ? (int64_t)(any() % (2 * reach)) - reach : (int64_t)any();
}

static void try_shape(tiling_machine machine) {
    tiling_outline *out = block(sizeof *out), kept;
    tiling_tile *tile = block(sizeof *tile);
    uint8_t *number = block(1), kind = any() % 4 ? any() % 4 : any();
    int status;
    fill(out, sizeof *out);
    kept = *out;
    count(status = tiling_prototile(machine, kind, out));
    if (status) same(out, &kept, sizeof kept, "tiling_prototile");
    if (status == TILING_OK && (out->count < 3 || out->count > 12)) exit(1);
    count(tiling_edges(machine, kind, number));
    count(tiling_glue_edge(machine, kind, number));
    fill(tile, sizeof *tile);
    if (any() % 8) tile->kind = any() % 4, tile->turn = any() % 11;
    for (int i = 0; i < 4; i++) tile->shift[i] = coefficient(i < 2 || any() % 2 ? 20000000 : 1);
    kept = *out;
    count(status = tiling_corners(machine, tile, out));
    if (status) same(out, &kept, sizeof kept, "tiling_corners");
    free(out);
    free(tile);
    free(number);
}

static void try_point(tiling_machine machine) {
    tiling_tile *top = block(sizeof *top), *tile = block(sizeof *tile), kept;
    tiling_point *point = block(sizeof *point);
    tiling_address *addr = block(sizeof *addr), before;
    tiling_frame *frame = block(sizeof *frame);
    int64_t reach = any() % 3 ? 100 : 1048580;
    int status;
    fill(top, sizeof *top);
    fill(tile, sizeof *tile);
    fill(addr, sizeof *addr);
    fill(frame, sizeof *frame);
    fill_address(&frame->base);
    if (any() % 2) frame->base.kind = any() % 3, frame->base.depth = 0;
    if (any() % 8) top->kind = any() % 3, top->turn = any() % 9;
    for (int i = 0; i < 4; i++) top->shift[i] = coefficient(i < 2 ? 100 : 1);
    for (int i = 0; i < 4; i++) point->c[i] = coefficient(reach);
    kept = *tile;
    before = *addr;
    count(status = tiling_locate(machine, top, any() % 8 ? any() % 30 : any(), point, tile, addr));
    if (status) same(tile, &kept, sizeof kept, "tiling_locate");
    if (status) same(addr, &before, sizeof before, "tiling_locate");
    kept = *tile;
    before = *addr;
    count(status = tiling_at(machine, frame, point, tile, addr));
    if (status) same(tile, &kept, sizeof kept, "tiling_at"), same(addr, &before, sizeof before, "tiling_at");
    free(top);
    free(tile);
    free(point);
    free(addr);
    free(frame);
}

/* tiles of which some are none, and windows of which some are none */
static void try_meeting(tiling_machine machine) {
    size_t many = any() % 12, others = any() % 8 ? many : any() % 12;
    tiling_tile *tiles = block(many * sizeof *tiles);
    tiling_window *window = block(sizeof *window);
    uint8_t *flags = block(others), *kept = block(others);
    int64_t reach = any() % 3 ? 40 : 1048580;
    fill(tiles, many * sizeof *tiles);
    fill(window, sizeof *window);
    fill(flags, others);
    memcpy(kept, flags, others);
    for (size_t i = 0; i < many; i++) {
        if (any() % 32) tiles[i].kind = any() % (tiling_kinds(machine) + (any() % 8 == 0));
        if (any() % 32) tiles[i].turn = any() % tiling_order(machine);
        for (int j = 0; j < 4; j++)
            tiles[i].shift[j] = any() % 64 == 0 ? (int64_t)any() : j < 2 ? (int64_t)(any() % 80) - 40 : 0;
    }
    for (int i = 0; i < 4; i++)
        window->at[i] = any() % 64 ? (int64_t)(any() % (2 * reach)) - reach : (int64_t)any();
    if (any() % 8) window->w = any() % 50;
    if (any() % 8) window->h = any() % 50;
    int status = tiling_meets_all(machine, tiles, many, window, flags, others);
    count(status);
    if (status) same(flags, kept, others, "tiling_meets_all");
    if (many != others && status != TILING_BAD_WORDS) exit(1);
    for (size_t i = 0; i < others && !status; i++) if (flags[i] > 1) exit(1);
    free(tiles);
    free(window);
    free(flags);
    free(kept);
}

static void try_path(tiling_machine machine) {
    size_t edges = any() % 30, room = any() % 8 ? edges + 1 : any() % 30;
    size_t rooms = any() % 8 ? edges + 1 : any() % 30;
    uint8_t *path = block(edges), grow = any() % 8 ? any() % 65 : any();
    tiling_tile *tiles = block(room * sizeof *tiles), *kept = block(room * sizeof *kept);
    tiling_address *addrs = block(rooms * sizeof *addrs);
    tiling_frame *frame = block(sizeof *frame);
    tiling_vertex_star *star = block(sizeof *star), *before = block(sizeof *before);
    int status;
    for (size_t i = 0; i < edges; i++) path[i] = any() % 16 ? any() % 3 : any();
    fill(frame, sizeof *frame);
    fill_address(&frame->base);
    if (any() % 2) frame->base.kind = any() % 3, frame->base.depth = 0;
    fill(tiles, room * sizeof *tiles);
    memcpy(kept, tiles, room * sizeof *tiles);
    count(status = tiling_walk(machine, frame, grow, path, edges, tiles, room, addrs, rooms));
    if (status) same(tiles, kept, room * sizeof *tiles, "tiling_walk");
    fill(star, sizeof *star);
    *before = *star;
    count(status = tiling_star(machine, frame, any() % 8 ? any() % 5 : any(), star));
    if (status) same(star, before, sizeof *star, "tiling_star");
    if (status == TILING_OK && (star->count < 1 || star->count > 64)) exit(1);
    free(path);
    free(tiles);
    free(kept);
    free(addrs);
    free(frame);
    free(star);
    free(before);
}

static void try_many(tiling_machine machine) {
    size_t many = any() % 12, others = any() % 8 ? many : any() % 12;
    tiling_address *addrs = block(many * sizeof *addrs), *kept = block(many * sizeof *kept);
    tiling_address *one = block(sizeof *one);
    tiling_tile *tiles = block(others * sizeof *tiles);
    uint8_t *edges = block(many);
    tiling_crossing *crossings = block(others * sizeof *crossings);
    tiling_relation *told = block(sizeof *told), before;
    int status;
    for (size_t i = 0; i < many; i++) fill_address(&addrs[i]), edges[i] = any() % 5 ? any() % 4 : any();
    memcpy(kept, addrs, many * sizeof *addrs);
    count(status = tiling_place_all(machine, addrs, many, tiles, others));
    for (size_t i = 0; i < many && status == TILING_OK; i++) count(tiles[i].status);
    count(status = tiling_neighbour_all(machine, addrs, many, edges, many, crossings, others));
    if (status) same(addrs, kept, many * sizeof *addrs, "tiling_neighbour_all");
    for (size_t i = 0; i < many && status == TILING_OK; i++) {
        count(crossings[i].status);
        if (crossings[i].status) same(&addrs[i], &kept[i], sizeof *addrs, "tiling_neighbour_all");
    }
    fill_address(one);
    fill(told, sizeof *told);
    before = *told;
    if (many > 1) {
        count(status = tiling_pair(machine, &addrs[0], any() % 2 ? &addrs[1] : one, told));
        if (status) same(told, &before, sizeof before, "tiling_pair");
        if (!status && told->relation > TILING_BESIDE) exit(1);
    }
    free(addrs);
    free(kept);
    free(one);
    free(tiles);
    free(edges);
    free(crossings);
    free(told);
}

/* the command, with words that now and then are right */
static void try_command(void) {
    static const char *const words[] = {
        "place", "neighbour", "check", "calc", "verify", "rule=chair", "rule=-",
        "addr=0:", "addr=0:1/0", "edge=3", "seed=7", "at=1,0,0,0", "half=2,2",
    };
    char text[256];
    size_t length = 0, many = any() % 7, given = any() % 60, room = any() % 90, notes = any() % 40;
    for (size_t i = 0; i < many; i++)
        length += sprintf(text + length, "%s\n", words[any() % (sizeof words / sizeof *words)]);
    if (length && any() % 8) length--;
    char *asked = block(length), *note = block(notes);
    uint8_t *input = block(given), *out = block(room);
    size_t *bytes = block(sizeof *bytes), *noted = block(sizeof *noted);
    memcpy(asked, text, length);
    if (length && any() % 8 == 0) asked[any() % length] = any();
    for (size_t i = 0; i < given; i++) input[i] = any() % 20 ? (uint8_t)"let a0:1/,\n"[any() % 11] : any();
    memset(out, 7, room);
    memset(note, 7, notes);
    *bytes = *noted = 7777;
    int status = tiling_call(asked, length, input, given, out, room, bytes, note, notes, noted);
    count(status);
    int is_noted = status > TILING_NOT_TEXT && status != TILING_NO_MEMORY;
    if ((status != TILING_OK && *bytes != 7777) || (!is_noted && *noted != 7777)) exit(1);
    for (size_t i = status ? 0 : *bytes; i < room; i++) if (out[i] != 7) exit(1);
    for (size_t i = is_noted ? *noted : 0; i < notes; i++) if (note[i] != 7) exit(1);
    free(asked);
    free(note);
    free(input);
    free(out);
    free(bytes);
    free(noted);
}

int main(int many, char **words) {
    static const char *const names[] = {"chair", "p2", "p3", "ab", "halfhex"};
    long rounds = many > 1 ? atol(words[1]) : 10000;
    static tiling_machine machines[5];
    for (int i = 0; i < 5; i++)
        if (tiling_open(names[i], strlen(names[i]), &machines[i])) return 2;
    for (long round = 0; round < rounds; round++) {
        tiling_machine machine = machines[any() % 5];
        try_tile(machine);
        if (round % 10 == 0) try_text(machine);
        if (round % 10 == 1) try_shape(machine);
        if (round % 20 == 2) try_point(machine);
        if (round % 20 == 3) try_path(machine);
        if (round % 10 == 4) try_many(machine);
        if (round % 10 == 5) try_meeting(machine);
        if (round % 100 == 6) try_rule(machine);
        if (round % 50 == 0) try_window(machine);
        if (round % 50 == 1) try_command();
    }
    for (int i = 0; i < 256; i++)
        if (seen[i]) printf("status %d: %lu\n", i, seen[i]);
    return 0;
}
