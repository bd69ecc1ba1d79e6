/* The library's answers in the command's texts, to be compared with the command's own.
 *
 * answers RULE SEED BASE A0 A1 A2 A3 W H FOLDER writes these files:
 *   list            the tiles of the window as `draw layers=list` prints them
 *   script          for `calc`: it places each tile, crosses each of its edges inside its supertile, and
 *                   pairs the first tile with it
 *   script_answers  what `calc` prints of it
 *   outside         a line `ADDRESS EDGE OWN PART` for each other edge
 *   wholes          the whole tiles of the window as `draw layers=list glue=yes` prints them
 *   walk            what `walk` prints for the path 0,1,2,0,1,2,1,0 from the base
 *   star_V          what `star` prints for vertex V of the base
 * The last two are empty where the call is refused. */
#include <inttypes.h>
#include <stdio.h>
#include <stdlib.h>
#include <string.h>
#include "tiling.h"

enum { ROOM = 200000 };

static void stop(const char *what, int status) {
    fprintf(stderr, "answers: %s: status %d\n", what, status);
    exit(1);
}

static FILE *file(const char *folder, const char *name) {
    char path[4096];
    snprintf(path, sizeof path, "%s/%s", folder, name);
    FILE *opened = fopen(path, "wb");
    if (!opened) stop(path, 0);
    return opened;
}

static const char *text(const tiling_address *addr) {
    static char out[516];
    size_t count;
    int status = tiling_write_address(addr, out, 515, &count);
    if (status) stop("tiling_write_address", status);
    out[count] = 0;
    return out;
}

static void put_place(FILE *out, const tiling_tile *tile) {
    const int64_t *a = tile->shift;
    fprintf(out, "%d %d", tile->kind, tile->turn);
    fprintf(out, " %" PRId64 ",%" PRId64 ",%" PRId64 ",%" PRId64, a[0], a[1], a[2], a[3]);
}

/* a tile of a frame, with its address and its number */
static void put_tile(FILE *out, const tiling_tile *tile, const tiling_address *addr) {
    put_place(out, tile);
    fprintf(out, " %s", text(addr));
}

static void put_wholes(tiling_machine machine, const tiling_frame *frame, const tiling_window *window,
                       FILE *out) {
    static tiling_whole_tile wholes[ROOM];
    size_t count = 0;
    int status = tiling_glue(machine, frame, window, wholes, ROOM, &count);
    if (status) stop("tiling_glue", status);
    for (size_t i = 0; i < count; i++) {
        for (int part = 0; part < wholes[i].parts; part++) {
            if (part) fprintf(out, " + ");
            put_tile(out, &wholes[i].tiles[part], &wholes[i].addrs[part]);
        }
        fprintf(out, "\n");
    }
}

static void put_walk(tiling_machine machine, const tiling_frame *frame, FILE *out) {
    enum { EDGES = 8 };
    static const uint8_t path[EDGES] = {0, 1, 2, 0, 1, 2, 1, 0};
    static tiling_tile tiles[EDGES + 1];
    static tiling_address addrs[EDGES + 1];
    int status = tiling_walk(machine, frame, 0, path, EDGES, tiles, EDGES + 1, addrs, EDGES + 1);
    for (int i = 0; i <= EDGES && !status; i++) {
        put_tile(out, &tiles[i], &addrs[i]);
        if (i) fprintf(out, " %d\n", tiles[i].number);
        else fprintf(out, " -\n");
    }
}

/* false if the base has no such vertex */
static int put_star(tiling_machine machine, const tiling_frame *frame, int vertex, const char *folder) {
    static tiling_vertex_star star;
    char name[16];
    int status = tiling_star(machine, frame, vertex, &star);
    if (status == TILING_NO_VERTEX) return 0;
    snprintf(name, sizeof name, "star_%d", vertex);
    FILE *out = file(folder, name);
    for (int i = 0; i < star.count && !status; i++) {
        put_tile(out, &star.tiles[i], &star.addrs[i]);
        fprintf(out, " %d\n", star.tiles[i].number);
    }
    return fclose(out) == 0;
}

static void put_pair(tiling_machine machine, const tiling_address *a, const tiling_address *b, FILE *out) {
    tiling_relation told;
    int status = tiling_pair(machine, a, b, &told);
    if (status) stop("tiling_pair", status);
    fprintf(out, "c a");
    for (int edge = 0; edge < 12 && told.relation == TILING_BESIDE; edge++)
        if (told.backs[edge] != TILING_NO_BACK) fprintf(out, " %d/%d", edge, told.backs[edge]);
    if (told.relation == TILING_APART) fprintf(out, " apart");
    if (told.relation == TILING_SAME) fprintf(out, " same");
    if (told.relation == TILING_STRANGERS) fprintf(out, " none");
    fprintf(out, "\n");
}

int main(int many, char **words) {
    static tiling_tile tiles[ROOM];
    static tiling_address addrs[ROOM];
    if (many != 11) return 2;
    tiling_machine machine;
    tiling_frame frame;
    tiling_window window;
    size_t count = 0;
    int status = tiling_open(words[1], strlen(words[1]), &machine);
    if (status) stop("tiling_open", status);
    frame.seed = strtoull(words[2], NULL, 10);
    status = tiling_read_address(machine, words[3], strlen(words[3]), &frame.base);
    if (status) stop("tiling_read_address", status);
    for (int i = 0; i < 4; i++) window.at[i] = atoll(words[4 + i]);
    window.w = atoi(words[8]);
    window.h = atoi(words[9]);
    status = tiling_cover(machine, &frame, &window, tiles, ROOM, addrs, ROOM, &count);
    if (status) stop("tiling_cover", status);

    FILE *list = file(words[10], "list"), *script = file(words[10], "script");
    FILE *answers = file(words[10], "script_answers"), *outside = file(words[10], "outside");
    FILE *walk = file(words[10], "walk");
    put_walk(machine, &frame, walk);
    FILE *wholes = file(words[10], "wholes");
    put_wholes(machine, &frame, &window, wholes);
    for (int vertex = 0; put_star(machine, &frame, vertex, words[10]); vertex++) {
    }
    for (size_t i = 0; i < count; i++) {
        put_tile(list, &tiles[i], &addrs[i]);
        fprintf(list, "\n");
        tiling_tile tile;
        status = tiling_place(machine, &addrs[i], &tile);
        if (status && status != TILING_COORD_LIMIT) stop("tiling_place", status);
        if (!i) fprintf(script, "let c %s\n", text(&addrs[i]));
        fprintf(script, "let a %s\npair c a\n", text(&addrs[i]));
        put_pair(machine, &addrs[0], &addrs[i], answers);
        if (!status) {
            fprintf(script, "place a\n");
            fprintf(answers, "a ");
            put_place(answers, &tile);
            fprintf(answers, "\n");
        }
        for (int edge = 0; edge < 256; edge++) {
            tiling_address there = addrs[i];
            uint8_t back, part;
            status = tiling_neighbour(machine, &there, edge, &back, &part);
            if (status == TILING_NO_EDGE) break;
            if (status == TILING_OUTSIDE) {
                fprintf(outside, "%s %d %d %d\n", text(&there), edge, back, part);
            } else if (status) {
                stop("tiling_neighbour", status);
            } else {
                fprintf(script, "across a %d b\n", edge);
                fprintf(answers, "b %s %d\n", text(&there), back);
            }
        }
    }
    return fclose(list) || fclose(script) || fclose(answers) || fclose(outside) || fclose(walk)
           || fclose(wholes);
}
