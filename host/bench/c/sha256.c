/* The name of a block, SHA-256 of its parent, height and contents, as FIPS 180-4 has it: plain C, beside which the library is
   measured. */
#include <stddef.h>
#include <stdint.h>
#include <string.h>

enum { NAME = 32, HEIGHT = 8, FRONT = NAME + HEIGHT, BLOCK = 64, BITS_AT = BLOCK - 8, ROUNDS = 64 };

static const uint32_t START[8] = {
    0x6a09e667, 0xbb67ae85, 0x3c6ef372, 0xa54ff53a, 0x510e527f, 0x9b05688c, 0x1f83d9ab, 0x5be0cd19,
};

static const uint32_t CONSTANTS[ROUNDS] = {
    0x428a2f98, 0x71374491, 0xb5c0fbcf, 0xe9b5dba5, 0x3956c25b, 0x59f111f1, 0x923f82a4, 0xab1c5ed5,
    0xd807aa98, 0x12835b01, 0x243185be, 0x550c7dc3, 0x72be5d74, 0x80deb1fe, 0x9bdc06a7, 0xc19bf174,
    0xe49b69c1, 0xefbe4786, 0x0fc19dc6, 0x240ca1cc, 0x2de92c6f, 0x4a7484aa, 0x5cb0a9dc, 0x76f988da,
    0x983e5152, 0xa831c66d, 0xb00327c8, 0xbf597fc7, 0xc6e00bf3, 0xd5a79147, 0x06ca6351, 0x14292967,
    0x27b70a85, 0x2e1b2138, 0x4d2c6dfc, 0x53380d13, 0x650a7354, 0x766a0abb, 0x81c2c92e, 0x92722c85,
    0xa2bfe8a1, 0xa81a664b, 0xc24b8b70, 0xc76c51a3, 0xd192e819, 0xd6990624, 0xf40e3585, 0x106aa070,
    0x19a4c116, 0x1e376c08, 0x2748774c, 0x34b0bcb5, 0x391c0cb3, 0x4ed8aa4a, 0x5b9cca4f, 0x682e6ff3,
    0x748f82ee, 0x78a5636f, 0x84c87814, 0x8cc70208, 0x90befffa, 0xa4506ceb, 0xbef9a3f7, 0xc67178f2,
};

static uint32_t rotate(uint32_t x, int n) { return x >> n | x << (32 - n); }
static uint32_t choose(uint32_t x, uint32_t y, uint32_t z) { return (x & y) ^ (~x & z); }
static uint32_t majority(uint32_t x, uint32_t y, uint32_t z) { return (x & y) ^ (x & z) ^ (y & z); }
static uint32_t big0(uint32_t x) { return rotate(x, 2) ^ rotate(x, 13) ^ rotate(x, 22); }
static uint32_t big1(uint32_t x) { return rotate(x, 6) ^ rotate(x, 11) ^ rotate(x, 25); }
static uint32_t small0(uint32_t x) { return rotate(x, 7) ^ rotate(x, 18) ^ x >> 3; }
static uint32_t small1(uint32_t x) { return rotate(x, 17) ^ rotate(x, 19) ^ x >> 10; }

static uint32_t load(const uint8_t *bytes) {
    return (uint32_t)bytes[0] << 24 | (uint32_t)bytes[1] << 16 | (uint32_t)bytes[2] << 8 | bytes[3];
}

static void store(uint8_t *bytes, uint32_t word) {
    for (int i = 0; i < 4; i++) bytes[i] = word >> (24 - 8 * i);
}

static void schedule(uint32_t words[ROUNDS], const uint8_t *block) {
    for (int t = 0; t < 16; t++) words[t] = load(block + 4 * t);
    for (int t = 16; t < ROUNDS; t++)
        words[t] = small1(words[t - 2]) + words[t - 7] + small0(words[t - 15]) + words[t - 16];
}

static void compress(uint32_t hash[8], const uint8_t *block) {
    uint32_t words[ROUNDS];
    schedule(words, block);
    uint32_t a = hash[0], b = hash[1], c = hash[2], d = hash[3], e = hash[4], f = hash[5], g = hash[6], h = hash[7];
    for (int t = 0; t < ROUNDS; t++) {
        uint32_t t1 = h + big1(e) + choose(e, f, g) + CONSTANTS[t] + words[t];
        uint32_t t2 = big0(a) + majority(a, b, c);
        h = g, g = f, f = e, e = d + t1;
        d = c, c = b, b = a, a = t1 + t2;
    }
    hash[0] += a, hash[1] += b, hash[2] += c, hash[3] += d;
    hash[4] += e, hash[5] += f, hash[6] += g, hash[7] += h;
}

/* The message ends in this block, which is filled so far: a bit, zeros, and the number of the message's bits. */
static void finish(uint32_t hash[8], uint8_t block[BLOCK], size_t filled, uint64_t bits) {
    block[filled++] = 0x80;
    if (filled > BITS_AT) {
        memset(block + filled, 0, BLOCK - filled);
        compress(hash, block);
        filled = 0;
    }
    memset(block + filled, 0, BITS_AT - filled);
    store(block + BITS_AT, bits >> 32);
    store(block + BITS_AT + 4, bits);
    compress(hash, block);
}

/* Only what shares a block with parent and height is copied of the contents, and what is left at their end. */
void c_name(const uint8_t parent[NAME], uint64_t height, const uint8_t *contents, size_t length, uint8_t name[NAME]) {
    uint32_t hash[8];
    uint8_t block[BLOCK];
    size_t first = length < BLOCK - FRONT ? length : BLOCK - FRONT;
    size_t filled = FRONT + first;

    memcpy(hash, START, sizeof hash);
    memcpy(block, parent, NAME);
    for (int i = 0; i < HEIGHT; i++) block[NAME + i] = height >> 8 * i;
    memcpy(block + FRONT, contents, first);
    if (filled == BLOCK) {
        const uint8_t *rest = contents + first;
        filled = length - first;
        compress(hash, block);
        for (; filled >= BLOCK; rest += BLOCK, filled -= BLOCK) compress(hash, rest);
        memcpy(block, rest, filled);
    }
    finish(hash, block, filled, 8 * ((uint64_t)FRONT + length));
    for (int i = 0; i < 8; i++) store(name + 4 * i, hash[i]);
}
