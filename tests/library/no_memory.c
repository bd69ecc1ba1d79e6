/* No memory at one call of malloc or realloc, each in turn: the call of the library answers NO_MEMORY,
 * changes nothing that it was passed, and keeps no block. Linked with --wrap=malloc, --wrap=realloc and
 * --wrap=free. */
#include <stdio.h>
#include <stdlib.h>
#include <string.h>
#include "tiling.h"

void *__real_malloc(size_t bytes);
void *__real_realloc(void *old, size_t bytes);
void __real_free(void *old);
void *__wrap_malloc(size_t bytes);
void *__wrap_realloc(void *old, size_t bytes);
void __wrap_free(void *old);

static long asked, refused, blocks;

static int is_refused(void) { return ++asked == refused; }

void *__wrap_malloc(size_t bytes) {
    void *place = is_refused() ? NULL : __real_malloc(bytes);
    blocks += place != NULL;
    return place;
}

void *__wrap_realloc(void *old, size_t bytes) {
    void *place = is_refused() ? NULL : __real_realloc(old, bytes);
    blocks += place != NULL && old == NULL;
    return place;
}

void __wrap_free(void *old) {
    blocks -= old != NULL;
    __real_free(old);
}

static int faults;

static void expect(int right, const char *what) {
    if (right) return;
    faults++;
    fprintf(stderr, "no_memory: %s, call %ld\n", what, refused);
}

static long open_each(const char *name, tiling_machine *machine) {
    tiling_status status = TILING_NO_MEMORY;
    for (refused = 1; status == TILING_NO_MEMORY; refused++) {
        long before = blocks;
        *machine = NULL;
        asked = 0;
        status = tiling_open(name, strlen(name), machine);
        expect(status == TILING_OK || (status == TILING_NO_MEMORY && *machine == NULL
               && blocks == before), name);
    }
    return refused - 2;
}

static long cover_each(tiling_machine machine) {
    static tiling_tile tiles[400], kept[400];
    static tiling_address addrs[400];
    tiling_frame frame;
    tiling_window window = {{0, 0, 0, 0}, 8, 8};
    tiling_status status = TILING_NO_MEMORY;
    memset(&frame, 0, sizeof frame);
    memset(tiles, 7, sizeof tiles);
    memcpy(kept, tiles, sizeof tiles);
    for (refused = 1; status == TILING_NO_MEMORY; refused++) {
        long before = blocks;
        size_t count = 77;
        asked = 0;
        status = tiling_cover(machine, &frame, &window, tiles, 400, addrs, 400, &count);
        expect(blocks == before, "a block was kept");
        expect(status == TILING_OK || (count == 77
               && memcmp(tiles, kept, sizeof tiles) == 0), "tiling_cover");
    }
    expect(status == TILING_OK, "the last status");
    return refused - 2;
}

static long glue_each(tiling_machine machine) {
    static tiling_whole_tile wholes[200], kept[200];
    tiling_frame frame;
    tiling_window window = {{0, 0, 0, 0}, 8, 8};
    tiling_status status = TILING_NO_MEMORY;
    memset(&frame, 0, sizeof frame);
    memset(wholes, 7, sizeof wholes);
    memcpy(kept, wholes, sizeof wholes);
    for (refused = 1; status == TILING_NO_MEMORY; refused++) {
        long before = blocks;
        size_t count = 77;
        asked = 0;
        status = tiling_glue(machine, &frame, &window, wholes, 200, &count);
        expect(blocks == before, "a block was kept");
        expect(status == TILING_OK || (count == 77
               && memcmp(wholes, kept, sizeof wholes) == 0), "tiling_glue");
    }
    expect(status == TILING_OK, "the last status");
    return refused - 2;
}

/* the tiles of a window, the last one first */
static long verify_each(tiling_machine machine) {
    static tiling_tile tiles[400];
    static tiling_address addrs[400];
    tiling_frame frame;
    tiling_window window = {{0, 0, 0, 0}, 8, 8};
    tiling_status status = TILING_NO_MEMORY;
    size_t count = 0;
    memset(&frame, 0, sizeof frame);
    refused = 0;
    expect(tiling_cover(machine, &frame, &window, tiles, 400, addrs, 400, &count) == TILING_OK, "no tiles");
    tiling_tile tile = tiles[0];
    tiling_address addr = addrs[0];
    tiles[0] = tiles[count - 1], tiles[count - 1] = tile;
    addrs[0] = addrs[count - 1], addrs[count - 1] = addr;
    for (refused = 1; status == TILING_NO_MEMORY; refused++) {
        long before = blocks;
        size_t index = 77;
        uint8_t fault = 99;
        asked = 0;
        status = tiling_verify(machine, &frame, &window, tiles, count, addrs, count, &fault, &index);
        expect(blocks == before, "a block was kept");
        expect((status == TILING_OK || status == TILING_NO_MEMORY) && fault == 99 && index == 77,
               "tiling_verify");
    }
    expect(status == TILING_OK, "the last status");
    return refused - 2;
}

/* the numbers of a rule, and which tiles meet a window, take no memory */
static void take_none(tiling_machine machine) {
    static tiling_rule_numbers rule;
    static tiling_tile tile;
    tiling_window window = {{0, 0, 0, 0}, 8, 8};
    uint8_t flag = 7;
    asked = 0, refused = 1;
    tiling_rule(machine, &rule);
    tiling_status status = tiling_meets_all(machine, &tile, 1, &window, &flag, 1);
    expect(status == TILING_OK && flag == 1, "tiling_meets_all");
    expect(asked == 0, "malloc was called");
}

/* a refused rule file */
static long refuse_each(void) {
    tiling_status status = TILING_NO_MEMORY;
    for (refused = 1; status == TILING_NO_MEMORY; refused++) {
        long before = blocks;
        tiling_machine machine = NULL;
        char line[128] = "";
        size_t count = 77;
        asked = 0;
        status = tiling_open_file((const uint8_t *)"format = 2", 10, &machine, line, 128, &count);
        expect(blocks == before && machine == NULL, "a block was kept");
        expect(status == TILING_RULE_REFUSED || (count == 77 && line[0] == 0), "tiling_open_file");
    }
    expect(status == TILING_RULE_REFUSED, "the last status");
    return refused - 2;
}

/* the command, with an answer and with a refusal; it does without some blocks */
static long call_each(const char *words, int last) {
    long all = 0, none = 0;
    for (refused = 0; refused <= all; refused++) {
        long before = blocks;
        uint8_t out[512] = {0}, input = 0;
        char note[128] = "";
        size_t count = 77, noted = 77;
        asked = 0;
        tiling_status status = tiling_call(words, strlen(words), &input, 0, out, sizeof out, &count, note,
                                           sizeof note, &noted);
        expect(blocks == before, "a block was kept");
        if (!refused) all = asked;
        if (!refused) expect(status == last && all > 0, "the status");
        if (status == last) continue;
        none++;
        expect(status == TILING_NO_MEMORY && count == 77 && noted == 77 && !out[0] && !note[0], "tiling_call");
    }
    expect(2 * none > all, "NO_MEMORY came too rarely");
    return all;
}

int main(void) {
    static const char *const names[] = {"chair", "p2", "p3", "ab", "halfhex"};
    for (int i = 0; i < 5; i++) {
        tiling_machine machine;
        long opening = open_each(names[i], &machine), covering = cover_each(machine);
        long gluing = glue_each(machine), verifying = verify_each(machine);
        take_none(machine);
        expect(opening > 0 && covering > 0 && gluing > 0 && verifying > 0, "no call of malloc");
        printf("%s: %ld calls of malloc at opening, %ld at covering, %ld at gluing, %ld at verifying\n",
               names[i], opening, covering, gluing, verifying);
    }
    printf("a refused file: %ld calls of malloc\n", refuse_each());
    printf("a command: %ld calls of malloc\n",
           call_each("draw\nrule=p3\naddr=0:\nat=0,0,0,0\nhalf=2,2\nlayers=svg", TILING_OK));
    printf("a refused command: %ld calls of malloc\n",
           call_each("neighbour\nrule=chair\naddr=0:0/0\nedge=8", TILING_NO_EDGE));
    return faults != 0;
}
