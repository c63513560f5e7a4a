#include <openssl/sha.h>
#include <stdint.h>
#include <stdio.h>
#include <stdlib.h>
#include <string.h>
#include <time.h>

#define LEAVES 1024

struct ots { int width, chains, shift; uint32_t code; };
static const struct ots SETS[] = {{1, 265, 7, 1}, {2, 133, 6, 2}, {4, 67, 4, 3}, {8, 34, 0, 4}};
static unsigned char id[16], seed[32], nodes[2 * LEAVES][32];

static long long now(void) {
    struct timespec t;
    clock_gettime(CLOCK_THREAD_CPUTIME_ID, &t);
    return t.tv_sec * 1000000000LL + t.tv_nsec;
}

static void put32(unsigned char *out, uint32_t n) {
    out[0] = n >> 24; out[1] = n >> 16; out[2] = n >> 8; out[3] = n;
}

static void hash(const unsigned char *in, size_t length, unsigned char *out) {
    SHA256_CTX c;
    SHA256_Init(&c);
    SHA256_Update(&c, in, length);
    SHA256_Final(out, &c);
}

static void begin(unsigned char *block, uint32_t q, int i) {
    memcpy(block, id, 16); put32(block + 16, q); block[20] = i >> 8; block[21] = i;
}

static void start(uint32_t q, int i, unsigned char *out) {
    unsigned char block[55];
    begin(block, q, i); block[22] = 0xff; memcpy(block + 23, seed, 32);
    hash(block, 55, out);
}

static void run(uint32_t q, int i, int from, int to, unsigned char *value) {
    unsigned char block[55];
    begin(block, q, i);
    for (int j = from; j < to; j++) {
        block[22] = j; memcpy(block + 23, value, 32);
        hash(block, 55, value);
    }
}

static void ends_key(uint32_t q, int chains, unsigned char ends[][32], unsigned char *out) {
    SHA256_CTX c;
    unsigned char head[22];
    memcpy(head, id, 16); put32(head + 16, q); head[20] = head[21] = 0x80;
    SHA256_Init(&c);
    SHA256_Update(&c, head, 22);
    SHA256_Update(&c, ends, 32 * (size_t)chains);
    SHA256_Final(out, &c);
}

static void node(uint32_t r, int mark, const unsigned char *a, size_t length, const unsigned char *b, unsigned char *out) {
    SHA256_CTX c;
    unsigned char head[22];
    memcpy(head, id, 16); put32(head + 16, r); head[20] = head[21] = mark;
    SHA256_Init(&c);
    SHA256_Update(&c, head, 22);
    SHA256_Update(&c, a, length);
    if (b) SHA256_Update(&c, b, 32);
    SHA256_Final(out, &c);
}

static void make(const struct ots *t) {
    static unsigned char ends[265][32];
    unsigned char key[32];
    for (uint32_t q = 0; q < LEAVES; q++) {
        for (int i = 0; i < t->chains; i++) { start(q, i, ends[i]); run(q, i, 0, (1 << t->width) - 1, ends[i]); }
        ends_key(q, t->chains, ends, key);
        node(LEAVES + q, 0x82, key, 32, NULL, nodes[LEAVES + q]);
    }
    for (uint32_t r = LEAVES - 1; r > 0; r--) node(r, 0x83, nodes[2 * r], 32, nodes[2 * r + 1], nodes[r]);
}

static int digit(const unsigned char *s, int i, int w) {
    return s[i * w / 8] >> (8 - (w * (i % (8 / w)) + w)) & ((1 << w) - 1);
}

static void coded(const struct ots *t, uint32_t q, const unsigned char *c, const unsigned char *message, size_t length, unsigned char *out) {
    unsigned char all[22 + 32 + 8];
    memcpy(all, id, 16); put32(all + 16, q); all[20] = all[21] = 0x81;
    memcpy(all + 22, c, 32); memcpy(all + 54, message, length);
    hash(all, 54 + length, out);
    int sum = 0;
    for (int i = 0; i < 256 / t->width; i++) sum += (1 << t->width) - 1 - digit(out, i, t->width);
    sum <<= t->shift;
    out[32] = sum >> 8; out[33] = sum;
}

static void sign(const struct ots *t, uint32_t q, const unsigned char *message, size_t length, unsigned char c[32], unsigned char links[][32]) {
    unsigned char s[34];
    start(q, 65533, c);
    coded(t, q, c, message, length, s);
    for (int i = 0; i < t->chains; i++) { start(q, i, links[i]); run(q, i, 0, digit(s, i, t->width), links[i]); }
}

static int verify(const struct ots *t, uint32_t q, const unsigned char *message, size_t length, const unsigned char c[32], unsigned char links[][32]) {
    static unsigned char ends[265][32];
    unsigned char s[34], value[32], key[32];
    coded(t, q, c, message, length, s);
    for (int i = 0; i < t->chains; i++) { memcpy(ends[i], links[i], 32); run(q, i, digit(s, i, t->width), (1 << t->width) - 1, ends[i]); }
    ends_key(q, t->chains, ends, key);
    node(LEAVES + q, 0x82, key, 32, NULL, value);
    for (uint32_t r = LEAVES + q; r > 1; r /= 2)
        if (r % 2 == 0) node(r / 2, 0x83, value, 32, nodes[r ^ 1], value); else node(r / 2, 0x83, nodes[r ^ 1], 32, value, value);
    return memcmp(value, nodes[1], 32) == 0;
}

int main(void) {
    static unsigned char links[265][32];
    unsigned char c[32];
    memset(id, 7, 16); memset(seed, 7, 32);
    for (int k = 0; k < 4; k++) {
        const struct ots *t = &SETS[k];
        long long before = now(), signing = 0, checking = 0;
        make(t);
        printf("make %d %lld 1\n", t->width, now() - before);
        for (int i = 0; i < 500; i++) {
            unsigned char message[2] = {i >> 8, i};
            before = now();
            sign(t, i, message, 2, c, links);
            long long middle = now();
            if (!verify(t, i, message, 2, c, links)) return 1;
            signing += middle - before; checking += now() - middle;
        }
        printf("sign %d %lld 500\nverify %d %lld 500\nroot %d ", t->width, signing, t->width, checking, t->width);
        for (int i = 0; i < 32; i++) printf("%02x", nodes[1][i]);
        printf("\n");
    }
    return 0;
}
