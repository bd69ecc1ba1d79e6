/* Random calls of every function of include/tiling.h, many of them hostile, with a hash of each status and of each byte
 * that a call could have filled. This one file is compiled for the native library, with the main below, and for
 * WebAssembly, where it calls the exports of tiling.wasm and lies in the same memory; both have to report the same text.
 *
 * It uses nothing of a C library. Sizes and machines that the library fills have 8 bytes on both. */
#include "tiling.h"

enum { MACHINES = 128, POOL = 48, MOST = 300, STARS = 64 };
#define LENGTH(array) ((int)(sizeof(array) / sizeof *(array)))

#define FUNCTIONS(X) \
    X(abi) X(open) X(open_file) X(share) X(order) X(kinds) X(edges) X(prototile) X(glue_edge) X(corners) X(read_address) \
    X(write_address) X(fits) X(place) X(neighbour) X(pair) X(locate) X(place_all) X(neighbour_all) X(cover) X(glue) \
    X(at) X(walk) X(star) X(verify) X(call) X(rule) X(meets_all)
#define NUMBERED(name) F_##name,
enum { FUNCTIONS(NUMBERED) F_COUNT };
#define NAMED(name) "tiling_" #name,
static const char *const names[] = {FUNCTIONS(NAMED)};

typedef union {
    size_t n;
    uint64_t all;
} size_slot;
typedef union {
    tiling_machine machine;
    uint64_t all;
} machine_slot;

/* ---- chance and hash */

static uint32_t state = 2463534242u, hash = 0x811c9dc5u, other_hash = 0x1234567u;
static struct {
    uint32_t calls, right;
} tried[F_COUNT];
static uint32_t statuses[256];

static uint32_t any(void) {
    state ^= state << 13;
    state ^= state >> 17;
    state ^= state << 5;
    return state;
}

static uint32_t below(uint32_t n) { return (uint32_t)((uint64_t)any() * n >> 32); }
static int rarely(uint32_t n) { return below(n) == 0; }

static void mix(uint32_t word) {
    hash = (hash ^ word) * 0x01000193u;
    hash ^= hash >> 15;
    other_hash = (other_hash ^ word) * 0x5bd1e995u;
    other_hash ^= other_hash >> 13;
}

static void mix_bytes(const void *place, size_t bytes) {
    const uint8_t *at = place;
    for (; bytes >= 4; at += 4, bytes -= 4) mix(at[0] | at[1] << 8 | at[2] << 16 | (uint32_t)at[3] << 24);
    for (; bytes; bytes--) mix(*at++);
}

static void fill(void *place, uint8_t byte, size_t bytes) {
    for (uint8_t *at = place; bytes; bytes--) *at++ = byte;
}

static void copy(void *to, const void *from, size_t bytes) {
    for (size_t i = 0; i < bytes; i++) ((uint8_t *)to)[i] = ((const uint8_t *)from)[i];
}

static int counted(int function, int status) {
    tried[function].calls++;
    tried[function].right += status == TILING_OK;
    statuses[status]++;
    mix((uint32_t)(function << 8 | status));
    return status;
}

/* ---- what calls are made of */

static machine_slot machines[MACHINES];
static int machine_count, with_halves[MACHINES], half_count, built_ins;
static tiling_address pool[MACHINES][POOL];
static int pool_count[MACHINES];
static struct {
    const uint8_t *bytes;
    size_t length;
} files[MACHINES];
static int file_count;

static tiling_tile tiles[MOST];
static tiling_address addrs[MOST], one, other;
static tiling_whole_tile wholes[STARS];
static tiling_crossing crossings[64];
static tiling_vertex_star star;
static tiling_outline outline;
static tiling_relation relation;
static tiling_rule_numbers rule;
static tiling_frame frame;
static tiling_window window;
static tiling_tile tile, top;
static tiling_point point;
static uint8_t edges[64], first_byte, second_byte;
static char text[1 << 16], note[1 << 11];
static uint8_t changed_file[1 << 20];
static size_slot size, other_size;
static int now; /* the number of the machine */

static tiling_machine machine(void) { return machines[now].machine; }

/* a number near 0, and now and then any of 64 bits */
static int64_t coefficient(uint32_t reach) {
    if (rarely(80)) {
        uint64_t high = any();
        return (int64_t)(high << 32 | any());
    }
    return (int64_t)below(2 * reach + 1) - reach;
}

/* an address of a tile of the machine, with all or fewer of its digits; and now and then another */
static void address(tiling_address *to) {
    fill(to, 0, sizeof *to);
    if (pool_count[now]) *to = pool[now][below((uint32_t)pool_count[now])];
    if (rarely(3)) to->depth = (uint8_t)below(to->depth + 1u);
    if (rarely(6)) ((uint8_t *)to)[below(rarely(2) ? 20 : 130)] = (uint8_t)(rarely(2) ? any() : below(4));
}

static uint8_t kind(void) { return (uint8_t)(rarely(8) ? any() : below(tiling_kinds(machine()))); }
static uint8_t turn(void) { return (uint8_t)(rarely(12) ? any() : below(tiling_order(machine()))); }
static uint8_t edge(void) { return (uint8_t)(rarely(10) ? any() : below(rarely(2) ? 3 : 5)); }

static void number_point(int64_t *c, uint32_t reach) {
    int parts = tiling_order(machine()) < 8 && !rarely(40) ? 2 : 4;
    for (int i = 0; i < 4; i++) c[i] = i < parts ? coefficient(reach) : 0;
}

static void any_frame(void) {
    fill(&frame, 0, sizeof frame);
    frame.seed = rarely(4) ? (uint64_t)any() << 32 | any() : any() % 1000;
    if (rarely(4)) address(&frame.base);
    else frame.base.kind = (uint8_t)(rarely(20) ? any() : below(tiling_kinds(machine())));
}

static void any_window(uint32_t reach) {
    fill(&window, 0, sizeof window);
    number_point(window.at, reach);
    window.w = (uint16_t)(rarely(30) ? any() : 1 + below(9));
    window.h = (uint16_t)(rarely(30) ? any() : 1 + below(9));
    if (window.w > 500 && window.h > 500) window.h = 0; /* (a window of 200,000 tiles takes long: those are tried apart) */
}

/* ---- the calls */

static void try_open(void) {
    static const char *const known[] = {"chair", "p2", "p3", "ab", "halfhex", "p1", "", "chairs", "P3"};
    const char *name = known[below(LENGTH(known))];
    size_t length = 0;
    machine_slot slot = {.all = 0};
    while (name[length]) length++;
    counted(F_open, tiling_open(name, length, &slot.machine));
    mix(slot.machine != 0);
}

static void try_open_file(void) {
    if (!file_count) return;
    int which = (int)below((uint32_t)file_count);
    size_t length = files[which].length;
    machine_slot slot = {.all = 0};
    copy(changed_file, files[which].bytes, length);
    if (rarely(3)) length = below((uint32_t)length + 1);
    if (length && rarely(3)) changed_file[below((uint32_t)length)] = (uint8_t)any();
    fill(text, 7, 160);
    size.all = 5;
    counted(F_open_file, tiling_open_file(changed_file, length, &slot.machine, text, below(160), &size.n));
    mix_bytes(text, 160);
    mix_bytes(&size, 8);
}

static void try_share(void) {
    machine_slot a = {.all = 0}, b = {.all = 0};
    tiling_share(machine(), &a.machine, &b.machine);
    counted(F_share, a.machine == machine() && b.machine == machine() ? TILING_OK : TILING_BAD_WORDS);
}

static void try_numbers(void) {
    mix(tiling_abi());
    counted(F_abi, TILING_OK);
    mix(tiling_order(machine()));
    counted(F_order, TILING_OK);
    mix(tiling_kinds(machine()));
    counted(F_kinds, TILING_OK);
    first_byte = 77;
    counted(F_edges, tiling_edges(machine(), kind(), &first_byte));
    mix(first_byte);
    fill(&outline, 3, sizeof outline);
    counted(F_prototile, tiling_prototile(machine(), kind(), &outline));
    mix_bytes(&outline, sizeof outline);
}

static void try_rule(void) {
    fill(&rule, 3, sizeof rule);
    tiling_rule(machine(), &rule);
    counted(F_rule, TILING_OK);
    mix_bytes(&rule.factor, sizeof rule.factor);
    for (int i = 0; i < LENGTH(rule.kinds); i++) {
        mix_bytes(&rule.kinds[i].prototile, 385);
        mix_bytes(rule.kinds[i].children, sizeof rule.kinds[i].children);
        mix_bytes(rule.kinds[i].edges, 13);
    }
    mix_bytes(rule.types, sizeof rule.types + sizeof rule.glue + 5);
}

static void try_glue_edge(void) {
    if (half_count && !rarely(3)) now = with_halves[below((uint32_t)half_count)];
    first_byte = 77;
    counted(F_glue_edge, tiling_glue_edge(machine(), kind(), &first_byte));
    mix(first_byte);
}

static void any_tile(tiling_tile *to, uint32_t reach) {
    fill(to, 0, sizeof *to);
    number_point(to->shift, reach);
    to->kind = kind();
    to->turn = turn();
    if (rarely(4)) to->number = (uint8_t)any();
}

static void try_corners(void) {
    any_tile(&tile, 100000);
    fill(&outline, 3, sizeof outline);
    counted(F_corners, tiling_corners(machine(), &tile, &outline));
    mix_bytes(&outline, sizeof outline);
}

static void try_texts(void) {
    address(&one);
    fill(text, 1, 600);
    size.all = 9;
    counted(F_write_address, tiling_write_address(&one, text, rarely(4) ? below(60) : 515 + below(85), &size.n));
    mix_bytes(text, 600);
    mix_bytes(&size, 8);
    size_t length = size.n < 600 ? size.n : 600;
    if (length && rarely(3)) text[below((uint32_t)length)] = "0123456789:/,, x"[below(16)];
    if (rarely(6)) length = below((uint32_t)length + 1);
    fill(&other, 9, sizeof other);
    counted(F_read_address, tiling_read_address(machine(), text, length, &other));
    mix_bytes(&other, sizeof other);
}

static void try_fits(void) {
    address(&one);
    counted(F_fits, tiling_fits(machine(), &one));
}

static void try_place(void) {
    address(&one);
    fill(&tile, 6, sizeof tile);
    counted(F_place, tiling_place(machine(), &one, &tile));
    mix_bytes(&tile, sizeof tile);
}

static void try_neighbour(void) {
    address(&one);
    first_byte = 77;
    second_byte = 78;
    counted(F_neighbour, tiling_neighbour(machine(), &one, edge(), &first_byte, &second_byte));
    mix_bytes(&one, sizeof one);
    mix((uint32_t)(first_byte << 8 | second_byte));
}

static void try_pair(void) {
    address(&one);
    other = one;
    if (rarely(2)) address(&other);
    else tiling_neighbour(machine(), &other, edge(), &first_byte, &second_byte);
    fill(&relation, 5, sizeof relation);
    counted(F_pair, tiling_pair(machine(), &one, &other, &relation));
    mix_bytes(&relation, sizeof relation);
}

/* a point in a supertile: a corner of one of its tiles, or any */
static void try_locate(void) {
    address(&one);
    if (one.depth > 7) one.depth = (uint8_t)below(8);
    any_tile(&top, 20);
    number_point(point.c, 9);
    uint8_t depth = (uint8_t)(rarely(20) ? any() : one.depth);
    if (!rarely(4) && tiling_place(machine(), &one, &tile) == TILING_OK && tiling_corners(machine(), &tile, &outline) == TILING_OK) {
        top.kind = one.depth ? one.digits[one.depth - 1].parent : one.kind;
        top.turn = 0;
        point = outline.corners[below(outline.count)];
        for (int i = 0; i < 4; i++) point.c[i] += top.shift[i];
    }
    fill(&tile, 6, sizeof tile);
    fill(&other, 9, sizeof other);
    counted(F_locate, tiling_locate(machine(), &top, depth, &point, &tile, &other));
    mix_bytes(&tile, sizeof tile);
    mix_bytes(&other, sizeof other);
}

static void try_arrays(void) {
    size_t count = below(20), more = rarely(9) ? below(20) : count;
    for (size_t i = 0; i < count; i++) {
        address(&addrs[i]);
        edges[i] = edge();
    }
    fill(tiles, 5, 20 * sizeof *tiles);
    counted(F_place_all, tiling_place_all(machine(), addrs, count, tiles, more));
    mix_bytes(tiles, 20 * sizeof *tiles);
    fill(crossings, 4, sizeof crossings);
    counted(F_neighbour_all, tiling_neighbour_all(machine(), addrs, count, edges, count, crossings, more));
    mix_bytes(addrs, count * sizeof *addrs);
    mix_bytes(crossings, sizeof crossings);
}

static void try_meets(void) {
    size_t count = below(20), more = rarely(9) ? below(20) : count;
    for (size_t i = 0; i < count; i++) {
        any_tile(&tiles[i], 12);
        tiles[i].kind = (uint8_t)(rarely(200) ? any() : below(tiling_kinds(machine())));
        tiles[i].turn = (uint8_t)(rarely(200) ? any() : below(tiling_order(machine())));
    }
    any_window(12);
    fill(edges, 7, sizeof edges);
    counted(F_meets_all, tiling_meets_all(machine(), tiles, count, &window, edges, more));
    mix_bytes(edges, sizeof edges);
}

static int covered(size_t room, size_t named) {
    fill(tiles, 2, room * sizeof *tiles);
    fill(addrs, 2, named * sizeof *addrs);
    size.all = 11;
    int status = counted(F_cover, tiling_cover(machine(), &frame, &window, tiles, room, addrs, named, &size.n));
    mix_bytes(tiles, room * sizeof *tiles);
    mix_bytes(addrs, named * sizeof *addrs);
    mix_bytes(&size, 8);
    return status;
}

static void try_cover(void) {
    any_frame();
    any_window(300);
    size_t room = rarely(3) ? below(8) : rarely(2) ? MOST : 40;
    covered(room, rarely(2) ? 0 : rarely(9) ? below(40) : room);
}

static void try_glue(void) {
    any_frame();
    any_window(300);
    size_t room = below(STARS + 1);
    fill(wholes, 4, room * sizeof *wholes);
    size.all = 12;
    counted(F_glue, tiling_glue(machine(), &frame, &window, wholes, room, &size.n));
    for (size_t i = 0; i < room; i++) mix_bytes(&wholes[i], 341);
    mix_bytes(&size, 8);
}

static void try_at(void) {
    any_frame();
    number_point(point.c, 3000);
    fill(&tile, 6, sizeof tile);
    fill(&other, 9, sizeof other);
    counted(F_at, tiling_at(machine(), &frame, &point, &tile, &other));
    mix_bytes(&tile, sizeof tile);
    mix_bytes(&other, sizeof other);
}

static void try_walk(void) {
    any_frame();
    size_t count = below(rarely(9) ? 60 : 12), room = count + 1 + (rarely(12) ? below(3) : 0);
    for (size_t i = 0; i < count; i++) edges[i] = (uint8_t)(rarely(60) ? any() : below(3));
    fill(tiles, 2, 64 * sizeof *tiles);
    fill(addrs, 2, 64 * sizeof *addrs);
    uint8_t grow = (uint8_t)(rarely(12) ? any() : below(12));
    counted(F_walk, tiling_walk(machine(), &frame, grow, edges, count, tiles, room, addrs, count + 1));
    mix_bytes(tiles, 64 * sizeof *tiles);
    mix_bytes(addrs, 64 * sizeof *addrs);
}

static void try_star(void) {
    any_frame();
    fill(&star, 2, sizeof star);
    counted(F_star, tiling_star(machine(), &frame, edge(), &star));
    mix_bytes(&star, 64 * (sizeof(tiling_tile) + sizeof(tiling_address)) + 1);
}

static void try_verify(void) {
    any_frame();
    any_window(300);
    if (window.w > 9 || window.h > 9 || covered(MOST, MOST) || size.n > MOST) return;
    size_t count = size.n;
    if (count && rarely(2)) ((uint8_t *)tiles)[below((uint32_t)(count * sizeof *tiles))] ^= (uint8_t)(1 + below(3));
    if (count && rarely(4)) ((uint8_t *)addrs)[below((uint32_t)(count * sizeof *addrs))] ^= 1;
    if (count > 1 && rarely(4)) tiles[0] = tiles[count - 1], addrs[0] = addrs[count - 1];
    if (count && rarely(6)) count--;
    first_byte = 77;
    other_size.all = 13;
    counted(F_verify, tiling_verify(machine(), &frame, &window, tiles, count, addrs, count, &first_byte, &other_size.n));
    mix(first_byte);
    mix_bytes(&other_size, 8);
}

/* ---- the command */

static size_t length;

static void put(const char *more) {
    while (*more) text[length++] = *more++;
}

static void put_number(uint32_t n) {
    char digits[12];
    int count = 0;
    do digits[count++] = (char)('0' + n % 10); while (n /= 10);
    while (count) text[length++] = digits[--count];
}

static void put_address(void) {
    size_slot bytes = {.all = 0};
    address(&one);
    put("\naddr=");
    if (!tiling_write_address(&one, text + length, 600, &bytes.n)) length += bytes.n;
}

static void put_window(void) {
    put(rarely(2) ? "\naddr=0:\nat=" : "\naddr=1:\nat=");
    for (int i = 0; i < 4; i++) {
        if (i) put(",");
        if (rarely(2)) put("-");
        put_number(i > 1 && tiling_order(machine()) < 8 ? 0 : 1 + below(90));
    }
    put("\nhalf=");
    put_number(1 + below(7));
    put(",");
    put_number(1 + below(7));
    put("\nseed=");
    put_number(any());
}

static void put_command(void) {
    static const char *const layers[] = {"list", "svg", "census", "svg,list,census", "lists"};
    switch (below(7)) {
    case 0: put("check"); break;
    case 1: put("place"); break;
    case 2: put("neighbour"); break;
    case 3: put("walk"); break;
    case 4: put("star"); break;
    default: put("draw");
    }
    int is_draw = text[0] == 'd', first = text[0];
    static const char *const rules[] = {"chair", "p2", "p3", "ab", "halfhex"};
    now = (int)below((uint32_t)built_ins);
    put("\nrule=");
    put(rarely(20) ? "none" : rules[now]);
    if (is_draw) {
        put_window();
        put("\nlayers=");
        put(layers[below(LENGTH(layers))]);
        if (rarely(2)) put("\nglue=yes");
    } else if (first != 'c') {
        put_address();
    }
    if (first == 'n') put("\nedge="), put_number(edge());
    if (first == 's') put("\nvertex="), put_number(edge());
    if (first == 'w') put("\npath=0,1,2,0"), put("\ngrow="), put_number(below(9));
}

static void try_call(void) {
    static uint8_t out[1 << 14];
    length = 0;
    put_command();
    if (rarely(12)) text[below((uint32_t)length)] = (char)any();
    size_t room = rarely(4) ? below(200) : sizeof out;
    fill(out, 1, 400);
    fill(note, 1, 200);
    size.all = other_size.all = 14;
    int status = counted(F_call, tiling_call(text, length, changed_file, 0, out, room, &size.n, note, below(200), &other_size.n));
    mix_bytes(out, status ? 400 : size.n < room ? size.n : room);
    mix_bytes(note, 200);
    mix_bytes(&size, 8);
    mix_bytes(&other_size, 8);
}

/* ---- all of it */

static void hold(tiling_machine it) {
    now = machine_count;
    machines[machine_count++].machine = it;
    for (uint8_t k = 0; k < tiling_kinds(it); k++)
        if (tiling_glue_edge(it, k, &first_byte) == TILING_OK) {
            with_halves[half_count++] = now;
            break;
        }
    fill(&frame, 0, sizeof frame);
    fill(&window, 0, sizeof window);
    window.w = window.h = 9;
    for (frame.seed = 3; pool_count[now] < POOL && frame.seed < 12; frame.seed++) {
        if (tiling_cover(it, &frame, &window, tiles, MOST, addrs, MOST, &size.n)) continue;
        for (size_t i = 0; i < size.n && i < MOST && pool_count[now] < POOL; i += 1 + size.n / 9) pool[now][pool_count[now]++] = addrs[i];
    }
}

static void open_all(void) {
    static const char *const rules[] = {"chair", "p2", "p3", "ab", "halfhex"};
    machine_slot slot = {.all = 0};
    for (int i = 0; i < LENGTH(rules); i++) {
        size_t bytes = 0;
        while (rules[i][bytes]) bytes++;
        if (!tiling_open(rules[i], bytes, &slot.machine)) hold(slot.machine);
    }
    built_ins = machine_count;
    for (int i = 0; i < file_count; i++)
        if (machine_count < MACHINES && !counted(F_open_file, tiling_open_file(files[i].bytes, files[i].length, &slot.machine, text, 128, &size.n)))
            hold(slot.machine);
}

static void try_one(void) {
    static void (*const calls[])(void) = {
        try_share, try_numbers, try_glue_edge, try_corners, try_texts, try_fits, try_place, try_neighbour, try_pair, try_locate,
        try_arrays, try_cover, try_glue, try_at, try_walk, try_star, try_verify, try_call, try_rule, try_meets,
    };
    now = (int)below((uint32_t)machine_count);
    if (rarely(1000)) try_open();
    if (rarely(4000)) try_open_file();
    calls[below(LENGTH(calls))]();
}

/* What was found, as text: a line for each function, and one of all. */
static const char *report(void) {
    uint32_t all = 0, right = 0;
    length = 0;
    for (int i = 0; i < F_COUNT; i++) {
        put(names[i]), put(" "), put_number(tried[i].calls), put(" calls, "), put_number(tried[i].right), put(" OK\n");
        all += tried[i].calls;
        right += tried[i].right;
    }
    put("statuses");
    for (int i = 0; i < 256; i++)
        if (statuses[i]) put(" "), put_number((uint32_t)i), put(":"), put_number(statuses[i]);
    put("\nmachines "), put_number((uint32_t)machine_count), put(", calls "), put_number(all), put(", OK "), put_number(right);
    put(", hashes "), put_number(hash), put(" "), put_number(other_hash), put("\n");
    text[length] = 0;
    return text;
}

#ifdef __wasm__
#define EXPORTED(name) __attribute__((export_name(#name), visibility("default")))
#else
#define EXPORTED(name)
#endif

void give_file(const uint8_t *bytes, size_t count);
const char *run(uint32_t rounds);

EXPORTED(give_file) void give_file(const uint8_t *bytes, size_t count) {
    files[file_count].bytes = bytes;
    files[file_count++].length = count;
}

/* Random calls, at least so many. */
EXPORTED(run) const char *run(uint32_t rounds) {
    open_all();
    for (uint32_t all = 0; all < rounds;) {
        try_one();
        all = 0;
        for (int i = 0; i < F_COUNT; i++) all += tried[i].calls;
    }
    return report();
}

#ifndef __wasm__
#include <stdio.h>
#include <stdlib.h>

/* random CALLS FILE..: the rule files in this order */
int main(int count, char **words) {
    for (int i = 2; i < count; i++) {
        FILE *file = fopen(words[i], "rb");
        uint8_t *bytes = malloc(1 << 20);
        if (!file || !bytes) return 2;
        give_file(bytes, fread(bytes, 1, 1 << 20, file));
        fclose(file);
    }
    fputs(run((uint32_t)strtoul(words[1], NULL, 10)), stdout);
    return 0;
}
#endif
