/* Goes through each function of the library and each status that it can answer. The expected values are
 * rows of the literature's rules, worked by hand; the tests of the crates have them too, as answers of the
 * command.
 *
 * each_call FOLDER: the folder of the rule files. */
#include <stdio.h>
#include <string.h>
#include "tiling.h"

static int faults;

static void expect(int right, int line, const char *fact) {
    if (right) return;
    faults++;
    fprintf(stderr, "each_call: line %d: %s\n", line, fact);
}

#define EXPECT(fact) expect(fact, __LINE__, #fact)

static tiling_machine opened(const char *name) {
    tiling_machine machine = NULL;
    EXPECT(tiling_open(name, strlen(name), &machine) == TILING_OK);
    return machine;
}

static tiling_address address(tiling_machine machine, const char *text) {
    tiling_address addr;
    memset(&addr, 0, sizeof addr);
    EXPECT(tiling_read_address(machine, text, strlen(text), &addr) == TILING_OK);
    return addr;
}

static int has_text(const tiling_address *addr, const char *text) {
    char out[515];
    size_t count = 0;
    return tiling_write_address(addr, out, sizeof out, &count) == TILING_OK && count == strlen(text)
           && memcmp(out, text, count) == 0;
}

/* a tile's kind, turn and shift, with no number and no status */
static int lies(const tiling_tile *tile, int kind, int turn, int64_t a, int64_t b, int64_t c, int64_t d) {
    static const uint8_t none[4];
    return tile->kind == kind && tile->turn == turn && tile->shift[0] == a && tile->shift[1] == b
           && tile->shift[2] == c
           && tile->shift[3] == d && tile->number == 0 && tile->status == 0
                  && memcmp(tile->rest, none, 4) == 0;
}

static void try_machines(void) {
    tiling_machine slot = NULL, first = NULL, second = NULL;
    static const char *const names[] = {"chair", "p2", "p3", "ab", "halfhex"};
    for (size_t i = 0; i < sizeof names / sizeof *names; i++) opened(names[i]);
    EXPECT(tiling_abi() == TILING_ABI);
    EXPECT(tiling_open("chairs", 6, &slot) == TILING_BAD_WORDS && slot == NULL);
    EXPECT(tiling_open("chair", 0, &slot) == TILING_BAD_WORDS && slot == NULL);
    EXPECT(tiling_open("p\xff", 2, &slot) == TILING_BAD_WORDS && slot == NULL);
    slot = opened("chair");
    tiling_share(slot, &first, &second);
    EXPECT(first == slot && second == slot);
}

/* the bytes of a rule file in a folder, with their number; at most 64 KB of them */
static const uint8_t *file_of(const char *folder, const char *name, size_t *bytes) {
    static uint8_t held[65536];
    char path[1024];
    snprintf(path, sizeof path, "%s/%s", folder, name);
    FILE *file = fopen(path, "rb");
    *bytes = file ? fread(held, 1, sizeof held, file) : 0;
    EXPECT(file && *bytes > 0 && fclose(file) == 0);
    return held;
}

static void try_files(const char *folder) {
    static const struct {
        const char *file, *line;
    } refused[] = {
        {"", "3 RuleRefused Missing format\n"},
        {"format =", "3 RuleRefused NotToml\n"},
        {"format = 9", "3 RuleRefused OutOfRange format\n"},
        {"format = 2", "3 RuleRefused Missing order\n"},
    };
    tiling_machine slot = NULL;
    char line[128];
    size_t bytes, count = 77;
    const uint8_t *file = file_of(folder, "sphinx.toml", &bytes);
    EXPECT(tiling_open_file(file, bytes, &slot, line, sizeof line, &count) == TILING_OK && count == 77);
    EXPECT(tiling_order(slot) == 6 && tiling_kinds(slot) == 2);
    tiling_address addr = address(slot, "0:");
    tiling_tile tile;
    EXPECT(tiling_place(slot, &addr, &tile) == TILING_OK && lies(&tile, 0, 0, 0, 0, 0, 0));
    for (size_t i = 0; i < sizeof refused / sizeof *refused; i++) {
        tiling_machine none = NULL;
        const char *told = refused[i].line;
        file = (const uint8_t *)refused[i].file, bytes = strlen(refused[i].file);
        memset(line, 7, sizeof line);
        EXPECT(tiling_open_file(file, bytes, &none, line, sizeof line, &count) == TILING_RULE_REFUSED);
        EXPECT(none == NULL && count == strlen(told) && memcmp(line, told, count) == 0 && line[count] == 7);
        memset(line, 7, sizeof line);
        EXPECT(tiling_open_file(file, bytes, &none, line, 4, &count) == TILING_RULE_REFUSED);
        EXPECT(count == strlen(told) && memcmp(line, told, 4) == 0 && line[4] == 7);
    }
    static uint8_t long_file[1048577];
    EXPECT(tiling_open_file(long_file, sizeof long_file, &slot, line, 128, &count) == TILING_RULE_REFUSED);
    EXPECT(count == 14 && memcmp(line, "3 RuleTooLong\n", 14) == 0);
}

static void try_rule(void) {
    static const struct {
        const char *name;
        int order, kinds;
    } rules[] = {{"chair", 4, 1}, {"p2", 10, 4}, {"p3", 10, 4}, {"ab", 8, 3}, {"halfhex", 6, 1}};
    for (size_t i = 0; i < sizeof rules / sizeof *rules; i++) {
        tiling_machine machine = opened(rules[i].name);
        EXPECT(tiling_order(machine) == rules[i].order && tiling_kinds(machine) == rules[i].kinds);
    }
}

/* all the numbers of the rules of the chair and of Ammann and Beenker, as their rule files have them */
static void try_numbers(void) {
    static const uint8_t chair_child[4][4] = {{0, 0, 0, 0}, {0, 0, 1, 1}, {0, 1, 4, 0}, {0, 3, 0, 4}};
    static const uint8_t ab_types[4][5] = {{1, 2, 0, 2}, {0, 2, 3, 1}, {3, 3, 0, 3, 1}, {2, 3, 0, 2, 1}};
    static const uint8_t ab_edges[3][4] = {{0, 1, 0, 1}, {2, 0, 0}, {1, 1, 3}};
    static const int8_t ab_last[3][6] = {{2, 1, 0, 1, 0, 0}, {0, 1, 1, 0, 0, 0}, {0, 6, 1, 0, 0, 0}};
    static tiling_rule_numbers rule;
    memset(&rule, 7, sizeof rule);
    tiling_rule(opened("chair"), &rule);
    EXPECT(rule.format == 1 && rule.order == 4 && rule.factor.c[0] == 2 && rule.factor.c[1] == 0);
    EXPECT(rule.kind_count == 1 && rule.type_count == 1 && rule.glue_count == 0 && rule.glue[0] == 0);
    EXPECT(rule.types[0].mate == 0 && rule.types[0].count == 2 && rule.types[0].parts[1] == 0);
    EXPECT(rule.kinds[0].prototile.count == 8 && rule.kinds[0].child_count == 4);
    for (int i = 0; i < 4; i++) {
        const uint8_t *child = chair_child[i];
        EXPECT(lies(&rule.kinds[0].children[i], child[0], child[1], child[2], child[3], 0, 0));
    }
    EXPECT(lies(&rule.kinds[0].children[4], 0, 0, 0, 0, 0, 0) && rule.kinds[1].child_count == 0);
    memset(&rule, 7, sizeof rule);
    tiling_rule(opened("ab"), &rule);
    static const int64_t silver[4] = {1, 1, 0, -1};
    EXPECT(rule.format == 1 && rule.order == 8 && memcmp(rule.factor.c, silver, sizeof silver) == 0);
    EXPECT(rule.kind_count == 3 && rule.type_count == 4 && rule.glue_count == 1 && rule.glue[0] == 2);
    for (int i = 0; i < 4; i++) {
        EXPECT(rule.types[i].mate == ab_types[i][0] && rule.types[i].count == ab_types[i][1]);
        EXPECT(memcmp(rule.types[i].parts, &ab_types[i][2], 3) == 0 && rule.types[i].parts[3] == 0);
    }
    for (int i = 0; i < 3; i++) {
        const tiling_kind *kind = &rule.kinds[i];
        const int8_t *last = ab_last[i];
        EXPECT(kind->prototile.count == (i ? 3 : 4) && memcmp(kind->edges, ab_edges[i], 4) == 0);
        EXPECT(kind->child_count == (i ? 5 : 7));
        EXPECT(lies(&kind->children[i ? 4 : 5], last[0], last[1], last[2], last[3], last[4], last[5]));
    }
    tiling_rule(opened("halfhex"), &rule);
    EXPECT(rule.format == 2 && rule.order == 6 && rule.types[1].mate == 0 && rule.kinds[1].child_count == 0);
}

/* a type is a glue type or the mate of one */
static int is_glued(const tiling_rule_numbers *rule, int type) {
    for (int i = 0; i < rule->glue_count; i++)
        if (type == rule->glue[i] || type == rule->types[rule->glue[i]].mate) return 1;
    return 0;
}

/* what the numbers of a rule say, other calls say too */
static void try_same_rule(const char *name) {
    static tiling_rule_numbers rule;
    tiling_machine machine = opened(name);
    memset(&rule, 7, sizeof rule);
    tiling_rule(machine, &rule);
    EXPECT(rule.order == tiling_order(machine) && rule.kind_count == tiling_kinds(machine));
    for (uint8_t kind = 0; kind < 16; kind++) {
        const tiling_kind *own = &rule.kinds[kind];
        tiling_outline outline;
        uint8_t glued = 99, edge;
        memset(&outline, 0, sizeof outline);
        tiling_status status = tiling_prototile(machine, kind, &outline);
        EXPECT(status == (kind < rule.kind_count ? TILING_OK : TILING_BAD_WORDS));
        EXPECT(own->prototile.count == outline.count);
        EXPECT(memcmp(own->prototile.corners, outline.corners, sizeof outline.corners) == 0);
        for (edge = 0; edge < outline.count && !is_glued(&rule, own->edges[edge]); edge++) continue;
        status = tiling_glue_edge(machine, kind, &glued);
        EXPECT(status == TILING_OK ? glued == edge : edge == outline.count);
        for (uint8_t child = 0; child < 16; child++) {
            tiling_address addr;
            tiling_tile tile;
            memset(&addr, 0, sizeof addr);
            memset(&tile, 0, sizeof tile);
            addr.kind = own->children[child].kind, addr.depth = 1;
            addr.digits[0].child = child, addr.digits[0].parent = kind;
            status = tiling_place(machine, &addr, &tile);
            EXPECT((status == TILING_OK) == (child < own->child_count));
            EXPECT(memcmp(&own->children[child], &tile, sizeof tile) == 0);
        }
    }
}

static void try_addresses(void) {
    tiling_machine chair = opened("chair");
    tiling_address addr = address(chair, "0:1/0,2/0"), before;
    char text[515];
    size_t count = 77;
    EXPECT(addr.kind == 0 && addr.depth == 2 && addr.digits[0].child == 1 && addr.digits[1].child == 2);
    EXPECT(has_text(&addr, "0:1/0,2/0"));
    EXPECT(tiling_fits(chair, &addr) == TILING_OK);
    before = addr;
    EXPECT(tiling_read_address(chair, "0:4/0", 5, &addr) == TILING_BAD_ADDRESS);
    EXPECT(tiling_read_address(chair, "3", 1, &addr) == TILING_BAD_ADDRESS);
    EXPECT(tiling_read_address(chair, "1:", 2, &addr) == TILING_BAD_ADDRESS);
    EXPECT(memcmp(&addr, &before, sizeof addr) == 0);
    EXPECT(tiling_write_address(&addr, text, 8, &count) == TILING_BAD_WORDS && count == 77);
    EXPECT(tiling_write_address(&addr, text, 9, &count) == TILING_OK && count == 9);
    addr.depth = 65;
    EXPECT(tiling_write_address(&addr, text, sizeof text, &count) == TILING_BAD_WORDS);
    EXPECT(tiling_fits(chair, &addr) == TILING_BAD_ADDRESS);
    addr.depth = 2;
    addr.digits[1].parent = 1;
    EXPECT(tiling_fits(chair, &addr) == TILING_BAD_ADDRESS);
}

static void try_place(void) {
    tiling_machine chair = opened("chair"), p3 = opened("p3"), p2 = opened("p2"), ab = opened("ab");
    tiling_address addr;
    tiling_tile tile, before;
    addr = address(chair, "0:");
    EXPECT(tiling_place(chair, &addr, &tile) == TILING_OK && lies(&tile, 0, 0, 0, 0, 0, 0));
    addr = address(chair, "0:1/0,2/0");
    EXPECT(tiling_place(chair, &addr, &tile) == TILING_OK && lies(&tile, 0, 1, 7, 1, 0, 0));
    addr = address(p3, "0:0/0,0/0");
    EXPECT(tiling_place(p3, &addr, &tile) == TILING_OK && lies(&tile, 0, 4, 2, 0, 1, -1));
    addr = address(p2, "1:1/0");
    EXPECT(tiling_place(p2, &addr, &tile) == TILING_OK && lies(&tile, 1, 4, 2, 0, 1, -1));
    addr = address(ab, "0:3/0");
    EXPECT(tiling_place(ab, &addr, &tile) == TILING_OK && lies(&tile, 0, 4, 2, 2, 1, -1));
    before = tile;
    addr = address(chair, "0:1/0");
    addr.digits[0].child = 4;
    EXPECT(tiling_place(chair, &addr, &tile) == TILING_BAD_ADDRESS
           && memcmp(&tile, &before, sizeof tile) == 0);
    addr.depth = 64;
    for (int i = 0; i < 64; i++) addr.digits[i].child = 2, addr.digits[i].parent = 0;
    EXPECT(tiling_place(chair, &addr, &tile) == TILING_COORD_LIMIT
           && memcmp(&tile, &before, sizeof tile) == 0);
}

static void try_neighbour(void) {
    static const struct {
        const char *rule, *from;
        int edge;
        const char *to;
        int back;
    } rows[] = {
        {"chair", "0:0/0", 0, "0:1/0", 3},           {"chair", "0:1/0", 3, "0:0/0", 0},
        {"chair", "0:0/0,1/0", 4, "0:1/0,0/0", 7},   {"p3", "0:0/0", 0, "2:1/0", 0},
        {"p3", "2:1/0,0/0", 2, "3:1/2,1/0", 0},      {"p2", "1:1/0", 0, "0:2/0", 2},
        {"ab", "0:0/0", 1, "1:1/0", 2},              {"ab", "1:1/0,6/0", 0, "2:0/2,2/0", 2},
    };
    for (size_t i = 0; i < sizeof rows / sizeof *rows; i++) {
        tiling_machine machine = opened(rows[i].rule);
        tiling_address addr = address(machine, rows[i].from);
        uint8_t back = 99, home = 99, part = 77;
        EXPECT(tiling_neighbour(machine, &addr, rows[i].edge, &back, &part) == TILING_OK);
        EXPECT(has_text(&addr, rows[i].to) && back == rows[i].back && part == 77);
        EXPECT(tiling_neighbour(machine, &addr, back, &home, &part) == TILING_OK);
        EXPECT(has_text(&addr, rows[i].from) && home == rows[i].edge);
    }
    tiling_machine chair = opened("chair"), p3 = opened("p3");
    tiling_address addr = address(chair, "0:0/0"), before = addr;
    uint8_t back = 99, part = 77;
    EXPECT(tiling_neighbour(chair, &addr, 8, &back, &part) == TILING_NO_EDGE && back == 99 && part == 77);
    EXPECT(tiling_neighbour(chair, &addr, 255, &back, &part) == TILING_NO_EDGE && back == 99 && part == 77);
    EXPECT(tiling_neighbour(chair, &addr, 4, &back, &part) == TILING_OUTSIDE && back == 4 && part == 0);
    EXPECT(memcmp(&addr, &before, sizeof addr) == 0);
    addr = address(p3, "0:0/0,0/0");
    EXPECT(tiling_neighbour(p3, &addr, 2, &back, &part) == TILING_OUTSIDE && back == 0 && part == 1);
    addr.kind = 9;
    back = 99, part = 77;
    EXPECT(tiling_neighbour(p3, &addr, 2, &back, &part) == TILING_BAD_ADDRESS && back == 99 && part == 77);
}

static void try_cover(void) {
    tiling_machine chair = opened("chair");
    tiling_frame frame;
    tiling_window window = {{1, 1, 0, 0}, 2, 1};
    tiling_tile tiles[4];
    tiling_address addrs[4];
    size_t count = 0;
    memset(&frame, 0, sizeof frame);
    memset(tiles, 7, sizeof tiles);
    memset(addrs, 7, sizeof addrs);
    frame.seed = 42;
    EXPECT(tiling_cover(chair, &frame, &window, tiles, 4, addrs, 4, &count) == TILING_OK && count == 2);
    EXPECT(lies(&tiles[0], 0, 0, 0, 0, 0, 0) && has_text(&addrs[0], "0:3/0"));
    EXPECT(lies(&tiles[1], 0, 1, 3, 1, 0, 0) && has_text(&addrs[1], "0:1/0"));
    EXPECT(tiles[2].kind == 7 && addrs[2].kind == 7);
    memset(tiles, 7, sizeof tiles);
    EXPECT(tiling_cover(chair, &frame, &window, tiles, 1, addrs, 0, &count) == TILING_OK && count == 2);
    EXPECT(lies(&tiles[0], 0, 0, 0, 0, 0, 0) && tiles[1].kind == 7);
    EXPECT(tiling_cover(chair, &frame, &window, tiles, 0, addrs, 0, &count) == TILING_OK && count == 2);
    count = 77;
    EXPECT(tiling_cover(chair, &frame, &window, tiles, 4, addrs, 3, &count) == TILING_BAD_WORDS
           && count == 77);
    window.w = 0;
    EXPECT(tiling_cover(chair, &frame, &window, tiles, 4, addrs, 4, &count) == TILING_BAD_WORDS);
    window.w = 4097;
    EXPECT(tiling_cover(chair, &frame, &window, tiles, 4, addrs, 4, &count) == TILING_BAD_WORDS);
    window.w = 1;
    window.at[3] = 1048577;
    EXPECT(tiling_cover(chair, &frame, &window, tiles, 4, addrs, 4, &count) == TILING_BAD_WORDS);
    window.at[3] = INT64_MIN;
    EXPECT(tiling_cover(chair, &frame, &window, tiles, 4, addrs, 4, &count) == TILING_BAD_WORDS);
    window.at[3] = 0;
    frame.base.kind = 1;
    EXPECT(tiling_cover(chair, &frame, &window, tiles, 4, addrs, 4, &count) == TILING_BAD_ADDRESS);
    frame.base.kind = 0;
    frame.base.depth = 64;
    memset(frame.base.digits, 0, sizeof frame.base.digits);
    window = (tiling_window){{0, 0, 0, 0}, 2, 1};
    EXPECT(tiling_cover(chair, &frame, &window, tiles, 4, addrs, 4, &count) == TILING_DEPTH_LIMIT
           && count == 77);
    window = (tiling_window){{-1, 0, 0, 0}, 1, 1};
    EXPECT(tiling_cover(chair, &frame, &window, tiles, 4, addrs, 4, &count) == TILING_COORD_LIMIT
           && count == 77);
    frame.base.depth = 0;
    window.w = window.h = 4096;
    EXPECT(tiling_cover(chair, &frame, &window, tiles, 4, addrs, 4, &count) == TILING_TOO_MANY_TILES
           && count == 77);
}

/* chairs of 2 by 2 without the quarter that ends at (2, 2); X is twice x, and Y is y */
static void try_meets(void) {
    tiling_machine chair = opened("chair");
    static const struct {
        int x, y, meets;
    } rows[] = {
        /* the window is 0 < x < 2, 0 < y < 2 */
        {0, 0, 1}, {1, 1, 1}, {0, -1, 1}, {1, -1, 1}, {0, 1, 1}, {-1, 1, 1},
        {2, 0, 0}, {-2, 0, 0}, {0, -2, 0}, {0, 2, 0}, {-1, -1, 0}, {1000000, 0, 0},
    };
    enum { MANY = sizeof rows / sizeof *rows };
    tiling_tile tiles[MANY];
    uint8_t flags[MANY], kept[MANY];
    tiling_window window = {{1, 1, 0, 0}, 2, 1};
    memset(tiles, 0, sizeof tiles);
    memset(flags, 7, sizeof flags);
    for (int i = 0; i < MANY; i++) tiles[i].shift[0] = rows[i].x, tiles[i].shift[1] = rows[i].y;
    EXPECT(tiling_meets_all(chair, tiles, MANY, &window, flags, MANY) == TILING_OK);
    for (int i = 0; i < MANY; i++) EXPECT(flags[i] == rows[i].meets);
    /* 3/2 < x < 5/2, 1 < y < 3: in the first chair's lacking quarter, and beyond it */
    tiling_window corner = {{2, 2, 0, 0}, 1, 1};
    EXPECT(tiling_meets_all(chair, tiles, 2, &corner, flags, 2) == TILING_OK && !flags[0] && flags[1]);
    EXPECT(tiling_meets_all(chair, tiles, 0, &window, flags, 0) == TILING_OK && flags[0] == 0);
    memcpy(kept, flags, sizeof kept);
    EXPECT(tiling_meets_all(chair, tiles, MANY, &window, flags, 3) == TILING_BAD_WORDS);
    window.h = 0;
    EXPECT(tiling_meets_all(chair, tiles, MANY, &window, flags, MANY) == TILING_BAD_WORDS);
    window.h = 1, window.at[2] = 1048577;
    EXPECT(tiling_meets_all(chair, tiles, MANY, &window, flags, MANY) == TILING_BAD_WORDS);
    window.at[2] = 0, tiles[MANY - 1].kind = 1;
    EXPECT(tiling_meets_all(chair, tiles, MANY, &window, flags, MANY) == TILING_BAD_WORDS);
    tiles[MANY - 1].kind = 0, tiles[MANY - 1].turn = 4;
    EXPECT(tiling_meets_all(chair, tiles, MANY, &window, flags, MANY) == TILING_BAD_WORDS);
    tiles[MANY - 1].turn = 3, tiles[MANY - 1].shift[0] = 16777217;
    EXPECT(tiling_meets_all(chair, tiles, MANY, &window, flags, MANY) == TILING_BAD_WORDS);
    tiles[MANY - 1].shift[0] = 0, tiles[MANY - 1].shift[3] = 1;
    EXPECT(tiling_meets_all(chair, tiles, MANY, &window, flags, MANY) == TILING_BAD_WORDS);
    EXPECT(memcmp(flags, kept, sizeof flags) == 0);
}

/* of the tiles of one window, those that meet another are those that the other window has, too */
static void try_two_windows(const char *name, uint64_t seed) {
    enum { ROOM = 4000 };
    static tiling_tile tiles[2][ROOM];
    static uint8_t flags[ROOM];
    tiling_address none;
    tiling_machine machine = opened(name);
    tiling_window windows[2] = {{{3, -2, 0, 0}, 13, 9}, {{11, 1, 0, 0}, 7, 12}};
    tiling_frame frame;
    size_t counts[2], met = 0, common = 0;
    memset(&frame, 0, sizeof frame);
    frame.seed = seed;
    for (int i = 0; i < 2; i++) {
        EXPECT(tiling_cover(machine, &frame, &windows[i], tiles[i], ROOM, &none, 0, &counts[i]) == TILING_OK);
        EXPECT(counts[i] > 20 && counts[i] <= ROOM);
        EXPECT(tiling_meets_all(machine, tiles[i], counts[i], &windows[i], flags, counts[i]) == TILING_OK);
        for (size_t j = 0; j < counts[i]; j++) EXPECT(flags[j] == 1);
    }
    EXPECT(tiling_meets_all(machine, tiles[0], counts[0], &windows[1], flags, counts[0]) == TILING_OK);
    for (size_t i = 0; i < counts[0]; i++) {
        int is_there = 0;
        for (size_t j = 0; j < counts[1]; j++)
            is_there |= memcmp(&tiles[0][i], &tiles[1][j], sizeof **tiles) == 0;
        EXPECT(flags[i] == is_there);
        met += flags[i], common += is_there;
    }
    EXPECT(met == common && met > 0 && met < counts[0]);
}

/* the first four coefficients of a corner are these */
static int corner_is(const tiling_outline *out, int corner, int64_t a, int64_t b) {
    const int64_t *c = out->corners[corner].c;
    return c[0] == a && c[1] == b && c[2] == 0 && c[3] == 0;
}

static void try_shapes(void) {
    static const struct {
        const char *name;
        int kind, edges, glue;
    } rows[] = {{"chair", 0, 8, -1}, {"p3", 0, 3, 1}, {"p3", 3, 3, 1}, {"halfhex", 0, 5, -1}};
    /* the L-tromino of three unit squares, its inner corner first */
    static const int64_t chair_corners[8][2] = {{1, 1}, {1, 2}, {0, 2}, {0, 1},
                                                {0, 0}, {1, 0}, {2, 0}, {2, 1}};
    for (size_t i = 0; i < sizeof rows / sizeof *rows; i++) {
        tiling_machine machine = opened(rows[i].name);
        uint8_t count = 99, edge = 99;
        EXPECT(tiling_edges(machine, rows[i].kind, &count) == TILING_OK && count == rows[i].edges);
        EXPECT(tiling_glue_edge(machine, rows[i].kind, &edge)
               == (rows[i].glue < 0 ? TILING_NO_EDGE : TILING_OK));
        EXPECT(edge == (rows[i].glue < 0 ? 99 : rows[i].glue));
    }
    tiling_machine chair = opened("chair");
    tiling_outline out, before;
    tiling_tile tile;
    uint8_t count = 99;
    memset(&out, 7, sizeof out);
    before = out;
    EXPECT(tiling_edges(chair, 1, &count) == TILING_BAD_WORDS && count == 99);
    EXPECT(tiling_glue_edge(chair, 255, &count) == TILING_BAD_WORDS && count == 99);
    EXPECT(tiling_prototile(chair, 1, &out) == TILING_BAD_WORDS && memcmp(&out, &before, sizeof out) == 0);
    EXPECT(tiling_prototile(chair, 0, &out) == TILING_OK && out.count == 8 && out.corners[8].c[0] != 0);
    for (int i = 0; i < 8; i++) EXPECT(corner_is(&out, i, chair_corners[i][0], chair_corners[i][1]));
    /* turned by 90 degrees about 0 and moved by 4: (x, y) goes to (4 - y, x) */
    memset(&tile, 0, sizeof tile);
    tile.turn = 1;
    tile.shift[0] = 4;
    memset(&out, 7, sizeof out);
    before = out;
    EXPECT(tiling_corners(chair, &tile, &out) == TILING_OK && out.count == 8);
    EXPECT(memcmp(&out.corners[8], &before.corners[8], 4 * sizeof *out.corners) == 0);
    for (int i = 0; i < 8; i++) EXPECT(corner_is(&out, i, 4 - chair_corners[i][1], chair_corners[i][0]));
    before = out;
    tile.turn = 4;
    EXPECT(tiling_corners(chair, &tile, &out) == TILING_BAD_WORDS);
    tile.turn = 0;
    tile.kind = 1;
    EXPECT(tiling_corners(chair, &tile, &out) == TILING_BAD_WORDS);
    tile.kind = 0;
    tile.shift[0] = 16777217;
    EXPECT(tiling_corners(chair, &tile, &out) == TILING_BAD_WORDS);
    tile.shift[0] = 16777216;
    tile.shift[3] = 1;
    EXPECT(tiling_corners(chair, &tile, &out) == TILING_BAD_WORDS && memcmp(&out, &before, sizeof out) == 0);
    tile.shift[3] = 0;
    EXPECT(tiling_corners(chair, &tile, &out) == TILING_OK && corner_is(&out, 4, 16777216, 0));
}

static void try_pair(void) {
    static const struct {
        const char *a, *b;
        int relation, edge, back, other, other_back;
    } rows[] = {
        {"0:0/0,1/0", "0:1/0,0/0", TILING_BESIDE, 3, 0, 4, 7},
        {"0:1/0,0/0", "0:0/0,1/0", TILING_BESIDE, 0, 3, 7, 4},
        {"0:0/0", "0:2/0", TILING_BESIDE, 6, 1, 6, 1},
        {"0:0/0", "0:0/0", TILING_SAME, -1, 0, -1, 0},
        {"0:0/0", "0:", TILING_STRANGERS, -1, 0, -1, 0},
        {"0:2/0", "0:3/0", TILING_APART, -1, 0, -1, 0},
    };
    tiling_machine chair = opened("chair");
    tiling_relation told, before;
    for (size_t i = 0; i < sizeof rows / sizeof *rows; i++) {
        tiling_address a = address(chair, rows[i].a), b = address(chair, rows[i].b);
        EXPECT(tiling_pair(chair, &a, &b, &told) == TILING_OK && told.relation == rows[i].relation);
        for (int edge = 0; edge < 12; edge++) {
            int back = edge == rows[i].edge    ? rows[i].back
                       : edge == rows[i].other ? rows[i].other_back
                                               : TILING_NO_BACK;
            EXPECT(told.backs[edge] == back);
        }
    }
    tiling_address a = address(chair, "0:0/0"), wrong = a;
    wrong.kind = 1;
    before = told;
    EXPECT(tiling_pair(chair, &wrong, &a, &told) == TILING_BAD_ADDRESS);
    EXPECT(tiling_pair(chair, &a, &wrong, &told) == TILING_BAD_ADDRESS);
    EXPECT(memcmp(&told, &before, sizeof told) == 0);
}

static void try_locate(void) {
    tiling_machine chair = opened("chair");
    tiling_tile top, tile, before;
    tiling_point point = {{1, 1, 0, 0}};
    tiling_address addr, kept;
    memset(&top, 0, sizeof top);
    EXPECT(tiling_locate(chair, &top, 1, &point, &tile, &addr) == TILING_OK);
    EXPECT(lies(&tile, 0, 0, 1, 1, 0, 0) && has_text(&addr, "0:1/0"));
    point.c[0] = 3, point.c[1] = 0;
    EXPECT(tiling_locate(chair, &top, 1, &point, &tile, &addr) == TILING_OK);
    EXPECT(lies(&tile, 0, 1, 4, 0, 0, 0) && has_text(&addr, "0:2/0"));
    before = tile, kept = addr;
    point.c[0] = 4;
    EXPECT(tiling_locate(chair, &top, 1, &point, &tile, &addr) == TILING_OUTSIDE);
    point.c[0] = 0;
    EXPECT(tiling_locate(chair, &top, 25, &point, &tile, &addr) == TILING_COORD_LIMIT);
    EXPECT(tiling_locate(chair, &top, 65, &point, &tile, &addr) == TILING_BAD_WORDS);
    top.kind = 1;
    EXPECT(tiling_locate(chair, &top, 1, &point, &tile, &addr) == TILING_BAD_WORDS);
    top.kind = 0, top.turn = 4;
    EXPECT(tiling_locate(chair, &top, 1, &point, &tile, &addr) == TILING_BAD_WORDS);
    top.turn = 0, point.c[2] = 1048577;
    EXPECT(tiling_locate(chair, &top, 1, &point, &tile, &addr) == TILING_BAD_WORDS);
    EXPECT(memcmp(&tile, &before, sizeof tile) == 0 && memcmp(&addr, &kept, sizeof addr) == 0);
    /* a lone tile has its lower and left edges, and not the others; in order 4 zeta^2 is -1 */
    point = (tiling_point){{1, 0, 1, 0}};
    EXPECT(tiling_locate(chair, &top, 0, &point, &tile, &addr) == TILING_OK && lies(&tile, 0, 0, 0, 0, 0, 0));
    point = (tiling_point){{2, 0, 0, 0}};
    EXPECT(tiling_locate(chair, &top, 0, &point, &tile, &addr) == TILING_OUTSIDE);
}

static void try_at(void) {
    tiling_machine chair = opened("chair");
    tiling_frame frame;
    tiling_tile tile, before;
    tiling_point point = {{1, 1, 0, 0}};
    tiling_address addr;
    memset(&frame, 0, sizeof frame);
    frame.seed = 42;
    EXPECT(tiling_at(chair, &frame, &point, &tile, &addr) == TILING_OK);
    EXPECT(lies(&tile, 0, 1, 3, 1, 0, 0) && has_text(&addr, "0:1/0"));
    point.c[0] = point.c[1] = 0;
    EXPECT(tiling_at(chair, &frame, &point, &tile, &addr) == TILING_OK);
    EXPECT(lies(&tile, 0, 0, 0, 0, 0, 0) && has_text(&addr, "0:"));
    before = tile;
    point.c[3] = -1048577;
    EXPECT(tiling_at(chair, &frame, &point, &tile, &addr) == TILING_BAD_WORDS);
    point.c[3] = 0;
    frame.base.kind = 1;
    EXPECT(tiling_at(chair, &frame, &point, &tile, &addr) == TILING_BAD_ADDRESS);
    /* below and left of a tile that stands in the corner of each of its ancestors */
    frame.base.kind = 0, frame.base.depth = 64;
    point.c[0] = -1;
    EXPECT(tiling_at(chair, &frame, &point, &tile, &addr) == TILING_COORD_LIMIT);
    EXPECT(memcmp(&tile, &before, sizeof tile) == 0);
}

/* a frame of 64 levels, whose base stands in the corner of each: all that is filled has 64 digits */
static void try_deep(void) {
    tiling_machine chair = opened("chair");
    static tiling_whole_tile wholes[32];
    static tiling_tile tiles[32];
    static tiling_address addrs[32];
    static tiling_vertex_star star;
    tiling_frame frame;
    tiling_window window = {{3, 3, 0, 0}, 1, 1};
    tiling_point point = {{3, 3, 0, 0}};
    size_t count = 0;
    uint8_t edge = 0;
    memset(&frame, 0, sizeof frame);
    frame.base.depth = 64;
    EXPECT(tiling_cover(chair, &frame, &window, tiles, 32, addrs, 32, &count) == TILING_OK && count > 1);
    for (size_t i = 0; i < count; i++) EXPECT(addrs[i].depth == 64);
    EXPECT(tiling_glue(chair, &frame, &window, wholes, 32, &count) == TILING_OK && count > 1);
    for (size_t i = 0; i < count; i++) EXPECT(wholes[i].addrs[0].depth == 64);
    EXPECT(tiling_at(chair, &frame, &point, tiles, addrs) == TILING_OK && addrs[0].depth == 64);
    EXPECT(tiling_walk(chair, &frame, 0, &edge, 1, tiles, 2, addrs, 2) == TILING_OK);
    EXPECT(addrs[0].depth == 64 && addrs[1].depth == 64);
    EXPECT(tiling_star(chair, &frame, 0, &star) == TILING_OK && star.count > 1);
    for (int i = 0; i < star.count; i++) EXPECT(star.addrs[i].depth == 64);
}

/* a part of a whole tile: its address, kind, turn and shift */
static int is_part(const tiling_whole_tile *whole, int part, const char *text, int kind, int turn, int64_t a,
                   int64_t b, int64_t c, int64_t d) {
    return has_text(&whole->addrs[part], text) && lies(&whole->tiles[part], kind, turn, a, b, c, d);
}

static void try_glue(void) {
    tiling_machine chair = opened("chair"), ab = opened("ab");
    static tiling_whole_tile wholes[8], before[8];
    tiling_frame frame;
    tiling_window window = {{0, 0, 0, 0}, 1, 1};
    size_t count = 0;
    memset(&frame, 0, sizeof frame);
    memset(wholes, 7, sizeof wholes);
    frame.seed = 42;
    EXPECT(tiling_glue(chair, &frame, &window, wholes, 8, &count) == TILING_OK && count == 2);
    EXPECT(wholes[0].parts == 1 && is_part(&wholes[0], 0, "0:1/0,3/0", 0, 0, -1, -1, 0, 0));
    EXPECT(wholes[1].parts == 1 && is_part(&wholes[1], 0, "0:3/0,1/0", 0, 0, 0, 0, 0, 0));
    static const tiling_tile no_tile;
    static const tiling_address no_address;
    EXPECT(memcmp(&wholes[1].tiles[1], &no_tile, sizeof no_tile) == 0);
    EXPECT(memcmp(&wholes[1].addrs[1], &no_address, sizeof no_address) == 0 && wholes[2].parts == 7);
    EXPECT(tiling_glue(ab, &frame, &window, wholes, 1, &count) == TILING_OK && count == 5);
    EXPECT(wholes[0].parts == 2 && is_part(&wholes[0], 0, "1:4/0,0/0,4/2", 1, 2, 0, -1, 0, 0));
    EXPECT(is_part(&wholes[0], 1, "2:1/2,5/0,4/2", 2, 2, 0, -1, 0, 0) && wholes[2].parts == 7);
    memcpy(before, wholes, sizeof wholes);
    window.w = 0;
    EXPECT(tiling_glue(chair, &frame, &window, wholes, 8, &count) == TILING_BAD_WORDS);
    window.w = 1;
    frame.base.kind = 1;
    EXPECT(tiling_glue(chair, &frame, &window, wholes, 8, &count) == TILING_BAD_ADDRESS);
    frame.base.kind = 0;
    window.w = window.h = 4096;
    EXPECT(tiling_glue(chair, &frame, &window, wholes, 8, &count) == TILING_TOO_MANY_TILES);
    frame.base.depth = 64;
    window.w = window.h = 1;
    EXPECT(tiling_glue(chair, &frame, &window, wholes, 8, &count) == TILING_DEPTH_LIMIT);
    EXPECT(memcmp(wholes, before, sizeof wholes) == 0 && count == 5);
}

static void try_walk(void) {
    tiling_machine chair = opened("chair");
    tiling_frame frame;
    tiling_tile tiles[3], before[3];
    tiling_address addrs[3];
    uint8_t path[3] = {0, 3, 0};
    memset(&frame, 0, sizeof frame);
    frame.seed = 42;
    EXPECT(tiling_walk(chair, &frame, 0, path, 2, tiles, 3, addrs, 3) == TILING_OK);
    EXPECT(lies(&tiles[0], 0, 0, 0, 0, 0, 0) && has_text(&addrs[0], "0:3/0"));
    EXPECT(tiles[1].number == 1 && (tiles[1].number = 0, lies(&tiles[1], 0, 1, 3, 1, 0, 0)));
    EXPECT(has_text(&addrs[1], "0:1/0"));
    EXPECT(tiles[2].number == 0 && lies(&tiles[2], 0, 1, 4, 0, 0, 0) && has_text(&addrs[2], "0:0/0"));
    EXPECT(tiling_walk(chair, &frame, 6, path, 0, tiles, 1, addrs, 1) == TILING_OK);
    EXPECT(has_text(&addrs[0], "0:3/0,1/0,0/0,3/0,3/0,2/0"));
    memcpy(before, tiles, sizeof tiles);
    EXPECT(tiling_walk(chair, &frame, 65, path, 2, tiles, 3, addrs, 3) == TILING_BAD_WORDS);
    EXPECT(tiling_walk(chair, &frame, 0, path, 2, tiles, 2, addrs, 3) == TILING_BAD_WORDS);
    EXPECT(tiling_walk(chair, &frame, 0, path, 2, tiles, 3, addrs, 2) == TILING_BAD_WORDS);
    path[0] = 8;
    EXPECT(tiling_walk(chair, &frame, 0, path, 2, tiles, 3, addrs, 3) == TILING_NO_EDGE);
    frame.base.kind = 1;
    EXPECT(tiling_walk(chair, &frame, 0, path, 2, tiles, 3, addrs, 3) == TILING_BAD_ADDRESS);
    frame.base.kind = 0, frame.base.depth = 64;
    path[0] = 4;
    EXPECT(tiling_walk(chair, &frame, 0, path, 1, tiles, 2, addrs, 2) == TILING_DEPTH_LIMIT);
    EXPECT(memcmp(tiles, before, sizeof tiles) == 0);
}

/* number i of a star: its address, turn, shift and vertex */
static int turns(const tiling_vertex_star *star, int i, const char *text, int turn, int64_t a, int64_t b,
                 int vertex) {
    const tiling_tile *tile = &star->tiles[i];
    return has_text(&star->addrs[i], text) && tile->turn == turn && tile->shift[0] == a && tile->shift[1] == b
           && tile->shift[2] == 0 && tile->shift[3] == 0 && tile->number == vertex && tile->status == 0;
}

static void try_star(void) {
    tiling_machine chair = opened("chair"), hex = opened("halfhex");
    static tiling_vertex_star star, before;
    tiling_frame frame;
    memset(&frame, 0, sizeof frame);
    memset(&star, 7, sizeof star);
    frame.seed = 42;
    EXPECT(tiling_star(chair, &frame, 0, &star) == TILING_OK && star.count == 2);
    EXPECT(turns(&star, 0, "0:3/0", 0, 0, 0, 0) && turns(&star, 1, "0:1/0", 1, 3, 1, 2));
    EXPECT(star.tiles[2].kind == 7 && star.addrs[2].kind == 7);
    frame.base = address(hex, "0:0/0");
    EXPECT(tiling_star(hex, &frame, 2, &star) == TILING_OK && star.count == 3);
    EXPECT(turns(&star, 0, "0:0/0", 0, 0, 0, 2) && turns(&star, 1, "0:1/0", 2, 3, 0, 2));
    EXPECT(turns(&star, 2, "0:2/0", 3, 1, 2, 3));
    frame.base = address(chair, "0:1/0");
    EXPECT(tiling_star(chair, &frame, 5, &star) == TILING_OK && star.count == 3);
    EXPECT(turns(&star, 0, "0:1/0", 0, 0, 0, 5) && turns(&star, 1, "0:0/0", 0, -1, -1, 7));
    EXPECT(turns(&star, 2, "0:2/0", 1, 3, -1, 1));
    before = star;
    EXPECT(tiling_star(chair, &frame, 8, &star) == TILING_NO_VERTEX);
    frame.base.kind = 1;
    EXPECT(tiling_star(chair, &frame, 0, &star) == TILING_BAD_ADDRESS);
    memset(&frame.base, 0, sizeof frame.base);
    frame.base.depth = 64;
    EXPECT(tiling_star(chair, &frame, 4, &star) == TILING_DEPTH_LIMIT);
    EXPECT(memcmp(&star, &before, sizeof star) == 0);
}

static void try_arrays(void) {
    tiling_machine chair = opened("chair");
    tiling_address addrs[4], before[4];
    tiling_tile tiles[4];
    tiling_crossing crossings[4];
    uint8_t edges[4] = {0, 4, 8, 0};
    addrs[0] = address(chair, "0:1/0,2/0");
    addrs[1] = addrs[2] = addrs[3] = address(chair, "0:0/0");
    addrs[2].depth = 64;
    for (int i = 0; i < 64; i++) addrs[2].digits[i].child = 2, addrs[2].digits[i].parent = 0;
    addrs[3].kind = 1;
    EXPECT(tiling_place_all(chair, addrs, 4, tiles, 4) == TILING_OK);
    EXPECT(lies(&tiles[0], 0, 1, 7, 1, 0, 0) && lies(&tiles[1], 0, 0, 0, 0, 0, 0));
    EXPECT(tiles[2].status == TILING_COORD_LIMIT && tiles[2].shift[0] == 0);
    EXPECT(tiles[3].status == TILING_BAD_ADDRESS && tiles[3].kind == 0);
    memset(tiles, 7, sizeof tiles);
    EXPECT(tiling_place_all(chair, addrs, 4, tiles, 3) == TILING_BAD_WORDS && tiles[0].kind == 7);
    EXPECT(tiling_place_all(chair, addrs, 0, tiles, 0) == TILING_OK && tiles[0].kind == 7);
    addrs[0] = addrs[2] = address(chair, "0:0/0");
    memcpy(before, addrs, sizeof addrs);
    memset(crossings, 7, sizeof crossings);
    EXPECT(tiling_neighbour_all(chair, addrs, 4, edges, 3, crossings, 4) == TILING_BAD_WORDS);
    EXPECT(tiling_neighbour_all(chair, addrs, 4, edges, 4, crossings, 3) == TILING_BAD_WORDS);
    EXPECT(memcmp(addrs, before, sizeof addrs) == 0 && crossings[0].status == 7);
    EXPECT(tiling_neighbour_all(chair, addrs, 4, edges, 4, crossings, 4) == TILING_OK);
    EXPECT(has_text(&addrs[0], "0:1/0") && crossings[0].status == TILING_OK && crossings[0].back == 3);
    EXPECT(crossings[1].status == TILING_OUTSIDE && crossings[1].back == 4 && crossings[1].part == 0);
    EXPECT(crossings[0].part == 0);
    EXPECT(crossings[2].status == TILING_NO_EDGE && crossings[2].back == 0 && crossings[2].part == 0);
    EXPECT(crossings[3].status == TILING_BAD_ADDRESS && crossings[3].back == 0 && crossings[3].part == 0);
    EXPECT(memcmp(&addrs[1], &before[1], 3 * sizeof *addrs) == 0);
}

/* the two chairs of a window, as in try_cover, and each fault of a list of them */
static void try_verify(void) {
    tiling_machine chair = opened("chair");
    tiling_frame frame;
    tiling_window window = {{1, 1, 0, 0}, 2, 1};
    tiling_tile tiles[3];
    tiling_address addrs[3];
    uint8_t fault = 99;
    size_t index = 77;
    memset(&frame, 0, sizeof frame);
    memset(tiles, 0, sizeof tiles);
    frame.seed = 42;
    tiles[1].turn = 1, tiles[1].shift[0] = 3, tiles[1].shift[1] = 1;
    addrs[0] = address(chair, "0:3/0"), addrs[1] = address(chair, "0:1/0");
#define VERIFY(many) tiling_verify(chair, &frame, &window, tiles, many, addrs, many, &fault, &index)
    EXPECT(VERIFY(2) == TILING_OK && fault == 99 && index == 77);
    tiling_tile tile = tiles[0];
    tiling_address addr = addrs[0];
    tiles[0] = tiles[1], tiles[1] = tile, addrs[0] = addrs[1], addrs[1] = addr;
    EXPECT(VERIFY(2) == TILING_OK && fault == 99 && index == 77);
    addrs[1] = address(chair, "0:");
    EXPECT(VERIFY(2) == TILING_OK);
    addrs[1] = addr;
    EXPECT(VERIFY(1) == TILING_BAD_LISTING && fault == TILING_MISSING && index == 0);
    EXPECT(VERIFY(0) == TILING_BAD_LISTING && fault == TILING_MISSING && index == 0);
    tiles[1].turn = 2;
    EXPECT(VERIFY(2) == TILING_BAD_LISTING && fault == TILING_WRONG_PLACE && index == 1);
    tiles[1].turn = 4;
    EXPECT(VERIFY(2) == TILING_BAD_LISTING && fault == TILING_NO_TILE && index == 1);
    tiles[1].turn = 0, tiles[1].kind = 1;
    EXPECT(VERIFY(2) == TILING_BAD_LISTING && fault == TILING_NO_TILE && index == 1);
    tiles[1].kind = 0, tiles[2] = tiles[1];
    addrs[2] = addrs[1];
    EXPECT(VERIFY(3) == TILING_BAD_LISTING && fault == TILING_DOUBLE && index == 2);
    tiles[0].kind = 1;
    EXPECT(VERIFY(3) == TILING_BAD_LISTING && fault == TILING_NO_TILE && index == 0);
    tiles[0].kind = 0;
    addrs[2] = address(chair, "0:0/0");
    EXPECT(VERIFY(3) == TILING_BAD_LISTING && fault == TILING_STRAY && index == 2);
    fault = 99, index = 77;
    EXPECT(tiling_verify(chair, &frame, &window, tiles, 2, addrs, 1, &fault, &index) == TILING_BAD_WORDS);
    window.w = 0;
    EXPECT(VERIFY(2) == TILING_BAD_WORDS);
    window.w = 2, frame.base.kind = 1;
    EXPECT(VERIFY(2) == TILING_BAD_ADDRESS && fault == 99 && index == 77);
#undef VERIFY
    /* the whole frame is the base, of kind 2, and no other kind of tile is it */
    tiling_machine p3 = opened("p3");
    window = (tiling_window){{0, 0, 0, 0}, 1, 1};
    frame.base = address(p3, "2:"), addrs[0] = address(p3, "0:");
    memset(tiles, 0, sizeof tiles);
    EXPECT(tiling_verify(p3, &frame, &window, tiles, 1, addrs, 1, &fault, &index) == TILING_BAD_LISTING);
    EXPECT(fault == TILING_NOT_OF_FRAME && index == 0);
}

/* calls of FORMATS.md, with rooms of different sizes */
static void try_call(void) {
    static const struct {
        const char *words, *input;
        int status;
        const char *told;
    } rows[] = {
        {"place\nrule=chair\naddr=0:1/0,2/0", "", TILING_OK, "0 1 7,1,0,0\n"},
        {"neighbour\nrule=p3\naddr=2:1/0,0/0\nedge=2", "", TILING_OK, "3:1/2,1/0 0\n"},
        {"draw\nrule=chair\naddr=0:\nseed=42\nat=1,1,0,0\nhalf=2,1\nlayers=list", "", TILING_OK,
         "0 0 0,0,0,0 0:3/0\n0 1 3,1,0,0 0:1/0\n"},
        {"check\nrule=-", "format = 2", TILING_RULE_REFUSED, "3 RuleRefused Missing order\n"},
        {"", "", TILING_BAD_WORDS, "2 BadWords 0\n"},
        {"place\n\nrule=chair\naddr=0:", "", TILING_BAD_WORDS, "2 BadWords 1\n"},
        {"place\nrule=chair\naddr=0:\xc3\xa9", "", TILING_BAD_ADDRESS, "4 BadAddress BadText 2\n"},
        {"neighbour\nrule=chair\naddr=0:0/0\nedge=8", "", TILING_NO_EDGE, "12 NoEdge 8 8\n"},
        {"neighbour\nrule=chair\naddr=0:0/0\nedge=4", "", TILING_OUTSIDE, "8 Outside 4 0\n"},
        {"calc\nrule=chair", "let a", TILING_BAD_SCRIPT, "13 BadScript BadLine 1 2\n"},
        {"verify\nrule=chair\naddr=0:\nseed=42\nat=1,1,0,0\nhalf=2,1", "0 0 0,0,0,0 0:3/0\n",
         TILING_BAD_LISTING, "17 BadListing Missing 0:1/0\n"},
        {"place\nrule=chair\naddr=\xff", "", TILING_NOT_TEXT, ""},
    };
    for (size_t i = 0; i < sizeof rows / sizeof *rows; i++) {
        const uint8_t *input = (const uint8_t *)rows[i].input;
        size_t words = strlen(rows[i].words), given = strlen(rows[i].input), length = strlen(rows[i].told);
        int is_ok = rows[i].status == TILING_OK, is_told = rows[i].status != TILING_NOT_TEXT;
        for (size_t room = 0; room <= 64; room += 8) {
            uint8_t out[64];
            char note[64];
            size_t count = 7777, note_count = 7777, held = length < room ? length : room;
            memset(out, 7, sizeof out);
            memset(note, 7, sizeof note);
            EXPECT(tiling_call(rows[i].words, words, input, given, out, room, &count, note, room, &note_count)
                   == rows[i].status);
            EXPECT(count == (is_ok ? length : 7777) && note_count == (is_ok || !is_told ? 7777 : length));
            EXPECT(!is_ok || memcmp(out, rows[i].told, held) == 0);
            EXPECT(is_ok || !is_told || memcmp(note, rows[i].told, held) == 0);
            for (size_t at = 0; at < 64; at++) {
                EXPECT((is_ok && at < held) || out[at] == 7);
                EXPECT((!is_ok && is_told && at < held) || note[at] == 7);
            }
        }
    }
}

int main(int many, char **words) {
    try_machines();
    if (many > 1) try_files(words[1]);
    try_rule();
    try_numbers();
    static const char *const names[] = {"chair", "p2", "p3", "ab", "halfhex"};
    for (size_t i = 0; i < sizeof names / sizeof *names; i++) {
        try_same_rule(names[i]);
        for (uint64_t seed = 0; seed < 5; seed++) try_two_windows(names[i], seed);
    }
    try_addresses();
    try_place();
    try_neighbour();
    try_cover();
    try_meets();
    try_glue();
    try_shapes();
    try_pair();
    try_locate();
    try_at();
    try_deep();
    try_walk();
    try_star();
    try_arrays();
    try_verify();
    try_call();
    return faults != 0;
}
