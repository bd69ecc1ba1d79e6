/* tiling.h: aperiodic substitution tilings, exactly, inside a program.
 *
 * The calls are those of the command `tiling`, with numbers instead of texts. docs/FORMATS.md says what each
 * means, and docs/PROMISES.md what is proved. A rule is made into a machine once; after that a call takes
 * from under a microsecond to a few microseconds. Nothing here opens a file, prints, starts a thread, or
 * keeps a state of its own.
 *
 * A call that returns a tiling_status returns the command's exit code. After any status except TILING_OK, the
 * outputs of the call are unchanged, unless its comment says otherwise. No library can test the following, so
 * a caller must ensure it:
 *   - each pointer leads to the stated number of values. NULL never does, not even to 0 values; a pointer to
 *     anything does to 0. What a call fills may be memory that was never written;
 *   - what a call fills overlaps nothing else that it is passed;
 *   - a tiling_machine comes from tiling_open, tiling_open_file or tiling_share of this library.
 * All else is tested and refused: no number, address or array of numbers makes a call do harm.
 *
 * A machine is only read, so any number of threads may use it at the same time. It stays until the process
 * ends. It takes 5 to 15 KB for a built-in rule, and up to 62 KB for a file of rules/. A program with very many
 * rule files, such as 100,000, should open them in child processes, with some thousands for each, or ask
 * tiling_call about them, which keeps nothing. */
#ifndef TILING_H
#define TILING_H

#include <stddef.h>
#include <stdint.h>

#ifdef __cplusplus
extern "C" {
#endif

/* The number of this header; tiling_abi() returns that of the library. It rises with each change that a caller
 * can see: of a struct, of the parameters of a function, of what a status or another number means, and also
 * where a function is new or gone. So where the two are equal, the library has every function of this header,
 * and they mean what it says. */
#define TILING_ABI 2

typedef uint8_t tiling_status;
enum {
    TILING_OK = 0,
    TILING_NOT_TEXT = 1,       /* the words of tiling_call are not UTF-8 */
    TILING_BAD_WORDS = 2,      /* a number out of its range, arrays of different lengths, an unknown name */
    TILING_RULE_REFUSED = 3,   /* the rule file stands for no accepted rule */
    TILING_BAD_ADDRESS = 4,    /* not the address of a tile of this rule */
    TILING_DEPTH_LIMIT = 5,    /* at depth 64, an edge that must be crossed is still on the boundary */
    TILING_COORD_LIMIT = 6,    /* a coefficient above 2^24 in absolute value */
    TILING_TOO_MANY_TILES = 7, /* more than 200,000 tiles meet the window */
    TILING_OUTSIDE = 8,        /* the edge, or the point, isn't inside the supertile */
    TILING_NO_MEMORY = 11,
    TILING_NO_EDGE = 12,       /* the tile has no such edge */
    TILING_BAD_SCRIPT = 13,    /* a line of a script has a fault */
    TILING_NO_VERTEX = 15,     /* the tile has no such vertex */
    TILING_STAR_TOO_BIG = 16,  /* more than 64 tiles have the vertex */
    TILING_BAD_LISTING = 17    /* the arrays, or the list, are not those of the window */
};

/* A machine; nothing may read or write what it points to. */
typedef struct tiling_opaque *tiling_machine;

/* An address: the kind of a tile, and `depth` digits from fine to coarse, at most 64. A digit says that the
 * tile below is child number `child` of a supertile of kind `parent`. The digits after them are not read. */
typedef struct {
    uint8_t child, parent;
} tiling_digit;
typedef struct {
    uint8_t kind, depth;
    tiling_digit digits[64];
} tiling_address;

/* A point: (a0, a1, a2, a3) is a0 + a1 zeta + a2 zeta^2 + a3 zeta^3, where zeta is exp(2 pi i / order). A
 * point that is passed has coefficients up to 2^20 in absolute value. */
typedef struct {
    int64_t c[4];
} tiling_point;

/* A tile at its place: z -> zeta^turn z + shift brings the prototile of its kind there. `number` is an edge
 * or a vertex where a call says so, and 0 elsewhere. `status` is 0, except in an array that says otherwise:
 * there it shows why this entry is no tile. `rest` is 0. */
typedef struct {
    int64_t shift[4];
    uint8_t status, kind, turn, number, rest[4];
} tiling_tile;

/* The corners of a tile, counterclockwise, `count` of them: 3 to 12, as many as its edges. Edge i runs from
 * corner i to the next, and the last edge back to corner 0. Entries after them are unchanged. */
typedef struct {
    tiling_point corners[12];
    uint8_t count;
} tiling_outline;

/* How one tile lies to another: `relation` is one of the four numbers below. For each edge of the first tile,
 * `backs` has the edge of the second that lies on it, or TILING_NO_BACK. */
typedef struct {
    uint8_t relation, backs[12];
} tiling_relation;
enum {
    TILING_STRANGERS = 0, /* they have no common supertile */
    TILING_SAME = 1,      /* they are one tile */
    TILING_APART = 2,     /* they have a common supertile, and share no edge */
    TILING_BESIDE = 3,    /* they share an edge, or several */
    TILING_NO_BACK = 255
};

/* How an edge was crossed, in an array: a status, and `back` and `part` as tiling_neighbour fills them. They
 * are 0 where it leaves them as they were. */
typedef struct {
    uint8_t status, back, part;
} tiling_crossing;

/* A frame: the supertiles around the base tile, which grow at the coarse end as the seed chooses. The same
 * two values give the same tiling in every call. */
typedef struct {
    uint64_t seed;
    tiling_address base;
} tiling_frame;

/* A window: the points whose X and Y differ from those of the point `at` by less than `w` and `h`. Each
 * coefficient is at most 2^20 in absolute value, and w and h are 1 to 4096. docs/COORDINATES.md says what X
 * and Y are. */
typedef struct {
    int64_t at[4];
    uint16_t w, h;
} tiling_window;

/* The tiles around a vertex, `count` of them, in turning order from the base of a frame. `number` of each is
 * its own number for the vertex. Its address in the frame has the same index in `addrs`. Entries after them
 * are unchanged. */
typedef struct {
    tiling_tile tiles[64];
    tiling_address addrs[64];
    uint8_t count;
} tiling_vertex_star;

/* An edge type of a rule. `mate` is the type of the same edge in the opposite direction. An edge of this type,
 * inflated, is cut into `count` edges, 1 to 8, whose types `parts` has in order. */
typedef struct {
    uint8_t mate, count, parts[8];
} tiling_edge_type;

/* A kind of a rule. `edges` has the type of each edge, as many as the prototile has corners. The tiles that
 * fill the inflated prototile are `child_count` `children`, 1 to 16, each at its place there. */
typedef struct {
    tiling_outline prototile;
    tiling_tile children[16];
    uint8_t edges[12], child_count;
} tiling_kind;

/* All the numbers of a rule: the inflation factor, the kinds, the edge types, the types of the edges along
 * which halves are glued, the `format` that a rule file of it has, 1 or 2, and the order. Kinds and types are
 * numbered from 0. In this struct and in those inside it, all numbers after the last of a list are 0. */
typedef struct {
    tiling_point factor;
    tiling_kind kinds[16];
    tiling_edge_type types[32];
    uint8_t glue[16], format, order, kind_count, type_count, glue_count;
} tiling_rule_numbers;

/* A whole tile. `parts` is 2 for two glued halves, and 1 for a tile that is no half. Each part has its
 * address in the frame at the same index in `addrs`. If there is one part, all numbers of the second entry
 * are 0. */
typedef struct {
    tiling_tile tiles[2];
    tiling_address addrs[2];
    uint8_t parts;
} tiling_whole_tile;

/* The number of the library's interface: TILING_ABI, if header and library belong together. */
uint32_t tiling_abi(void);

/* ---- machines ------------------------------------------------------------------------------------------ */

/* Opens the machine of a built-in rule: "chair", "p2", "p3", "ab" or "halfhex". The name has `name_bytes`
 * bytes.
 * BAD_WORDS: no rule has this name. NO_MEMORY. */
tiling_status tiling_open(const char *name, size_t name_bytes, tiling_machine *out);

/* Opens the machine of the rule file with these bytes; docs/FORMATS.md says what it may hold. If the file is
 * refused, `line` takes the line that the command writes for its first fault, such as "3 RuleRefused Missing
 * order" and a newline, as far as there is room, and `line_bytes` its whole length. 128 bytes are always
 * enough.
 * RULE_REFUSED. NO_MEMORY. */
tiling_status tiling_open_file(const uint8_t *file, size_t file_bytes, tiling_machine *out, char *line,
                               size_t line_room, size_t *line_bytes);

/* Two handles of one machine, both equal to the given one: to copy a tiling_machine is this call. It never
 * fails. */
void tiling_share(tiling_machine t, tiling_machine *a, tiling_machine *b);

/* ---- the rule ------------------------------------------------------------------------------------------ */

/* The order n of the rule, 4, 6, 8 or 10: zeta is exp(2 pi i / n), and turns are below n. */
uint8_t tiling_order(tiling_machine t);

/* How many kinds the rule has, 1 to 16; they are numbered from 0. */
uint8_t tiling_kinds(tiling_machine t);

/* Fills in all the numbers of the rule, 17,144 bytes. It never fails. */
void tiling_rule(tiling_machine t, tiling_rule_numbers *out);

/* How many edges a kind has, 3 to 12, and as many corners.
 * BAD_WORDS: the rule has no such kind. */
tiling_status tiling_edges(tiling_machine t, uint8_t kind, uint8_t *count);

/* The corners of a kind's prototile, as the rule has them.
 * BAD_WORDS: the rule has no such kind. */
tiling_status tiling_prototile(tiling_machine t, uint8_t kind, tiling_outline *out);

/* The edge along which a kind, a half of a tile, is glued to the other half.
 * BAD_WORDS: the rule has no such kind. NO_EDGE: the kind is a whole tile. */
tiling_status tiling_glue_edge(tiling_machine t, uint8_t kind, uint8_t *edge);

/* The corners of a tile at its place, by its kind, turn and shift.
 * BAD_WORDS: no such kind; a turn that isn't below the order; a shift with a coefficient above 2^24 in
 * absolute value, or, in the orders 4 and 6, with another c[2] or c[3] than 0. */
tiling_status tiling_corners(tiling_machine t, const tiling_tile *tile, tiling_outline *out);

/* ---- addresses ----------------------------------------------------------------------------------------- */

/* Reads the address of a tile of the rule from a text such as "0:1/0,2/0".
 * BAD_ADDRESS: the text is not the address of a tile of the rule. */
tiling_status tiling_read_address(tiling_machine t, const char *text, size_t text_bytes, tiling_address *out);

/* Writes the text of an address into the first bytes of `text`: at most 515, with no 0 after them. `bytes` is
 * their number.
 * BAD_WORDS: the depth is above 64, or there is too little room. */
tiling_status tiling_write_address(const tiling_address *addr, char *text, size_t room, size_t *bytes);

/* Whether these numbers are the address of a tile of the rule: OK or BAD_ADDRESS. */
tiling_status tiling_fits(tiling_machine t, const tiling_address *addr);

/* ---- tiles of a supertile ------------------------------------------------------------------------------ */

/* Where a tile lies in the supertile that its address names.
 * BAD_ADDRESS. COORD_LIMIT: a value on the way has a coefficient above 2^24. */
tiling_status tiling_place(tiling_machine t, const tiling_address *addr, tiling_tile *out);

/* Finds the tile across an edge. `addr` becomes its address, and `back` its edge that leads back; `part` is
 * unchanged.
 * BAD_ADDRESS. NO_EDGE. OUTSIDE: the edge lies on the supertile's own edge `back`, in the part `part` of
 * it, and `addr` is unchanged. */
tiling_status tiling_neighbour(tiling_machine t, tiling_address *addr, uint8_t edge, uint8_t *back,
                               uint8_t *part);

/* Finds how the tile `a` lies to the tile `b`, both in their common supertile, and every edge that they
 * share.
 * BAD_ADDRESS: one of them names no tile. */
tiling_status tiling_pair(tiling_machine t, const tiling_address *a, const tiling_address *b,
                          tiling_relation *out);

/* The only tile that holds a point, of the supertile of `depth` levels whose kind, turn and shift `top` has;
 * `addr` becomes its address in that supertile. A point on an edge belongs to just one of the tiles there.
 * BAD_WORDS: `top`, as for tiling_corners; a depth above 64; the point. OUTSIDE: the supertile doesn't hold
 * the point. COORD_LIMIT. */
tiling_status tiling_locate(tiling_machine t, const tiling_tile *top, uint8_t depth,
                            const tiling_point *point, tiling_tile *tile, tiling_address *addr);

/* Where each tile of an array lies, as tiling_place answers. Each tile of the answer has a status of its own;
 * if that isn't OK, its other numbers are 0.
 * BAD_WORDS: the two arrays have different lengths. */
tiling_status tiling_place_all(tiling_machine t, const tiling_address *addrs, size_t addrs_count,
                               tiling_tile *tiles, size_t tiles_count);

/* The tile across an edge of each tile of an array, in place, as tiling_neighbour answers. Each crossing has
 * a status of its own; if that isn't OK, the address is as it was.
 * BAD_WORDS: the three arrays have different lengths. */
tiling_status tiling_neighbour_all(tiling_machine t, tiling_address *addrs, size_t addrs_count,
                                   const uint8_t *edges, size_t edges_count, tiling_crossing *crossings,
                                   size_t crossings_count);

/* ---- frames -------------------------------------------------------------------------------------------- */

/* Finds exactly the tiles of the frame that meet a window. Each comes exactly once, in the order of their
 * shifts, turns and kinds. `count` is their total, even if there is room for fewer: then the first ones are
 * filled. Room for 200,000 is always enough.
 * `addrs` takes their addresses in the frame; its room is 0 for none, or else the same as that of `tiles`.
 * BAD_WORDS: the window's numbers, or the rooms. BAD_ADDRESS: the base. DEPTH_LIMIT. COORD_LIMIT.
 * TOO_MANY_TILES. NO_MEMORY. */
tiling_status tiling_cover(tiling_machine t, const tiling_frame *frame, const tiling_window *window,
                           tiling_tile *tiles, size_t tiles_room, tiling_address *addrs, size_t addrs_room,
                           size_t *count);

/* Finds exactly the whole tiles of the tiles of the frame that meet a window. Each comes exactly once, in the
 * order of the shifts, turns and kinds of their first parts. The frame grows until it has the other half of
 * each. `count` is their total, even if there is room for fewer: then the first ones are filled. Room for
 * 200,000 is always enough.
 * BAD_WORDS: the window's numbers. BAD_ADDRESS: the base. DEPTH_LIMIT. COORD_LIMIT. TOO_MANY_TILES: of tiles
 * that meet the window. NO_MEMORY. */
tiling_status tiling_glue(tiling_machine t, const tiling_frame *frame, const tiling_window *window,
                          tiling_whole_tile *wholes, size_t wholes_room, size_t *count);

/* Which tiles of an array meet a window: `flags` takes 1 for each that does, and 0 for each other one. This is
 * what it is for the tiles of tiling_cover: some point inside the window belongs to the tile. Of a tile only
 * kind, turn and shift are read, so it need not be one of a frame.
 * BAD_WORDS: the window's numbers; an entry that is no tile, as for tiling_corners; arrays of different
 * lengths. */
tiling_status tiling_meets_all(tiling_machine t, const tiling_tile *tiles, size_t tiles_count,
                               const tiling_window *window, uint8_t *flags, size_t flags_count);

/* The only tile of the frame that holds a point, with its address in the frame, at the least depth at which
 * the frame holds the point. A point on an edge belongs to exactly one of the tiles there.
 * BAD_WORDS: the point. BAD_ADDRESS: the base. COORD_LIMIT. */
tiling_status tiling_at(tiling_machine t, const tiling_frame *frame, const tiling_point *point,
                        tiling_tile *tile, tiling_address *addr);

/* Finds the tiles of a path across edges, the base first: each edge of the path is one of the tile reached.
 * `number` of each tile after the base is its edge that leads back. `addrs` takes the addresses in the frame.
 * The frame first grows to `grow` levels, if it has fewer, and then as far as the path needs. Several walks
 * with the same `grow`, if it is large enough for all of them, have addresses of the same depth.
 * BAD_WORDS: `grow` above 64, a path of more than 30,000 edges, or arrays that don't have exactly one entry
 * more than the path has edges. BAD_ADDRESS: the base. NO_EDGE: a tile reached has no such edge.
 * DEPTH_LIMIT. */
tiling_status tiling_walk(tiling_machine t, const tiling_frame *frame, uint8_t grow, const uint8_t *path,
                          size_t path_edges, tiling_tile *tiles, size_t tiles_count, tiling_address *addrs,
                          size_t addrs_count);

/* Finds exactly the tiles of the frame that have a vertex of its base.
 * BAD_ADDRESS: the base. NO_VERTEX. DEPTH_LIMIT. STAR_TOO_BIG. */
tiling_status tiling_star(tiling_machine t, const tiling_frame *frame, uint8_t vertex,
                          tiling_vertex_star *out);

/* Whether two arrays of one length have exactly the tiles of the frame that meet a window, in any order: each
 * tile exactly once, with its kind, turn and shift, and with its address in the frame. An address may have
 * any depth. Of a tile, `status`, `number` and `rest` are not read. At BAD_LISTING `fault` is one of the
 * numbers below, and `index` that of the entry; at TILING_MISSING it is 0. The faults come in this order, but
 * a missing tile, one out of its place, and the two limits are found on one walk, and the first comes.
 * BAD_WORDS: the window's numbers, arrays of different lengths, or of more than 200,000 entries. BAD_ADDRESS:
 * the base. DEPTH_LIMIT. COORD_LIMIT. NO_MEMORY. */
tiling_status tiling_verify(tiling_machine t, const tiling_frame *frame, const tiling_window *window,
                            const tiling_tile *tiles, size_t tiles_count, const tiling_address *addrs,
                            size_t addrs_count, uint8_t *fault, size_t *index);
enum {
    TILING_NO_TILE = 1,      /* no tile of the rule, its kind not that of its address, or no turn or shift */
    TILING_NOT_OF_FRAME = 2, /* not of the frame */
    TILING_DOUBLE = 3,       /* the tile of an earlier entry */
    TILING_MISSING = 4,      /* a tile that meets the window has no entry */
    TILING_WRONG_PLACE = 5,  /* another turn or shift than the tile has */
    TILING_STRAY = 6         /* the tile does not meet the window */
};

/* ---- the command --------------------------------------------------------------------------------------- */

/* All that the command `tiling` does, over bytes in memory. `words` are its arguments, with newlines between
 * them, such as "place\nrule=p3\naddr=2:1/0". An empty text is one empty argument, and is refused as none is.
 * `input` is what standard input gives. `out` takes what the command prints, and `note` its line of a
 * refusal, each as far as there is room. `out_bytes` and `note_bytes` take their whole lengths. Room for
 * 1,024 bytes is enough for every line.
 * The statuses are those of the command. At OK the note is unchanged, and after a refusal the text. At
 * NOT_TEXT and NO_MEMORY both are. */
tiling_status tiling_call(const char *words, size_t words_bytes, const uint8_t *input, size_t input_bytes,
                          uint8_t *out, size_t out_room, size_t *out_bytes, char *note, size_t note_room,
                          size_t *note_bytes);

#ifdef __cplusplus
}
#endif
#endif
