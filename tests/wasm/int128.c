/* Compares wasm/int128.c with what this compiler makes of the same products and shifts, on random numbers and on those
 * that are all zeros or ones. Prints how many were compared; ends with 1 if one differs. */
#include <stdio.h>
#define __multi3 product_of
#define __ashlti3 shifted_up
#define __lshrti3 shifted_down
#define __ashrti3 shifted_down_signed
#define product product_of_halves
#include "../../wasm/int128.c"

static u64 state = 88172645463325252u;

static u64 any(void) {
    state ^= state << 13;
    state ^= state >> 7;
    state ^= state << 17;
    return state;
}

/* a half: any, few bits, or none or all of them */
static u64 half(void) {
    u64 bits = any();
    switch (any() % 5) {
    case 0: return 0;
    case 1: return ~(u64)0;
    case 2: return bits >> (any() % 64);
    default: return bits;
    }
}

int main(void) {
    long count = 3000000, wrong = 0;
    for (long i = 0; i < count; i++) {
        u128 a = (u128)half() << 64 | half(), b = (u128)half() << 64 | half();
        int n = (int)(any() % 128);
        wrong += product_of(a, b) != a * b;
        wrong += shifted_up(a, n) != a << n;
        wrong += shifted_down(a, n) != a >> n;
        wrong += shifted_down_signed(a, n) != (u128)((__int128)a >> n);
    }
    printf("%ld numbers, %ld differ\n", count, wrong);
    return wrong != 0;
}
