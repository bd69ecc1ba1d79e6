/* int128.c: what clang calls for numbers of 128 bits on WebAssembly, where no instruction has them; on x86-64 these are
 * instructions. Compiler-rt has the same functions. Nothing proves them; tests/wasm/int128.c tries them. */
typedef unsigned int u32;
typedef unsigned long long u64;
typedef unsigned __int128 u128;

typedef union {
    u128 all;
    struct {
        u64 low, high;
    };
} halves;

/* The product of two numbers of 64 bits. */
static u128 product(u64 a, u64 b) {
    u64 a0 = (u32)a, a1 = a >> 32, b0 = (u32)b, b1 = b >> 32;
    u64 low = a0 * b0, cross = a1 * b0 + (low >> 32), other = a0 * b1 + (u32)cross;
    halves r;
    r.low = other << 32 | (u32)low;
    r.high = a1 * b1 + (cross >> 32) + (other >> 32);
    return r.all;
}

u128 __multi3(u128 a, u128 b) {
    halves x = {a}, y = {b}, r;
    r.all = product(x.low, y.low);
    r.high += x.high * y.low + x.low * y.high;
    return r.all;
}

u128 __ashlti3(u128 a, int n) {
    halves x = {a}, r;
    if (n & 64) {
        r.low = 0;
        r.high = x.low << (n & 63);
    } else {
        r.low = x.low << n;
        r.high = n ? x.high << n | x.low >> (64 - n) : x.high;
    }
    return r.all;
}

u128 __lshrti3(u128 a, int n) {
    halves x = {a}, r;
    if (n & 64) {
        r.low = x.high >> (n & 63);
        r.high = 0;
    } else {
        r.low = n ? x.low >> n | x.high << (64 - n) : x.low;
        r.high = x.high >> n;
    }
    return r.all;
}

u128 __ashrti3(u128 a, int n) {
    halves x = {a}, r;
    long long high = (long long)x.high;
    if (n & 64) {
        r.low = (u64)(high >> (n & 63));
        r.high = (u64)(high >> 63);
    } else {
        r.low = n ? x.low >> n | x.high << (64 - n) : x.low;
        r.high = (u64)(high >> n);
    }
    return r.all;
}
