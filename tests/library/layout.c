/* The sizes and places of the plain values, as crates/c_values has them. */
#include "tiling.h"

#define PLACE(type, field, bytes) _Static_assert(offsetof(type, field) == (bytes), #type "." #field)
#define SIZE(type, bytes) _Static_assert(sizeof(type) == (bytes), #type)

SIZE(tiling_status, 1);
SIZE(tiling_machine, 8);

SIZE(tiling_digit, 2);
PLACE(tiling_digit, child, 0);
PLACE(tiling_digit, parent, 1);

SIZE(tiling_address, 130);
PLACE(tiling_address, kind, 0);
PLACE(tiling_address, depth, 1);
PLACE(tiling_address, digits, 2);

SIZE(tiling_tile, 40);
PLACE(tiling_tile, shift, 0);
PLACE(tiling_tile, status, 32);
PLACE(tiling_tile, kind, 33);
PLACE(tiling_tile, turn, 34);
PLACE(tiling_tile, number, 35);
PLACE(tiling_tile, rest, 36);

SIZE(tiling_frame, 144);
PLACE(tiling_frame, seed, 0);
PLACE(tiling_frame, base, 8);

SIZE(tiling_window, 40);
PLACE(tiling_window, at, 0);
PLACE(tiling_window, w, 32);
PLACE(tiling_window, h, 34);

SIZE(tiling_point, 32);
PLACE(tiling_point, c, 0);

SIZE(tiling_outline, 392);
PLACE(tiling_outline, corners, 0);
PLACE(tiling_outline, count, 384);

SIZE(tiling_relation, 13);
PLACE(tiling_relation, relation, 0);
PLACE(tiling_relation, backs, 1);

SIZE(tiling_crossing, 3);
PLACE(tiling_crossing, status, 0);
PLACE(tiling_crossing, back, 1);
PLACE(tiling_crossing, part, 2);

SIZE(tiling_vertex_star, 10888);
PLACE(tiling_vertex_star, tiles, 0);
PLACE(tiling_vertex_star, addrs, 2560);
PLACE(tiling_vertex_star, count, 10880);

SIZE(tiling_edge_type, 10);
PLACE(tiling_edge_type, mate, 0);
PLACE(tiling_edge_type, count, 1);
PLACE(tiling_edge_type, parts, 2);

SIZE(tiling_kind, 1048);
PLACE(tiling_kind, prototile, 0);
PLACE(tiling_kind, children, 392);
PLACE(tiling_kind, edges, 1032);
PLACE(tiling_kind, child_count, 1044);

SIZE(tiling_rule_numbers, 17144);
PLACE(tiling_rule_numbers, factor, 0);
PLACE(tiling_rule_numbers, kinds, 32);
PLACE(tiling_rule_numbers, types, 16800);
PLACE(tiling_rule_numbers, glue, 17120);
PLACE(tiling_rule_numbers, format, 17136);
PLACE(tiling_rule_numbers, order, 17137);
PLACE(tiling_rule_numbers, kind_count, 17138);
PLACE(tiling_rule_numbers, type_count, 17139);
PLACE(tiling_rule_numbers, glue_count, 17140);

SIZE(tiling_whole_tile, 344);
PLACE(tiling_whole_tile, tiles, 0);
PLACE(tiling_whole_tile, addrs, 80);
PLACE(tiling_whole_tile, parts, 340);
