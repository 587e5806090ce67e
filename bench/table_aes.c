/* A plain table implementation of AES-128 in CBC with PKCS #7 padding, for the comparison in
   ciphers.sh. Given the number of bytes of a text, prints that number and the nanoseconds a byte that
   sealing and opening take. Written for this comparison alone: it checks nothing. */
#include <stdint.h>
#include <stdio.h>
#include <stdlib.h>
#include <string.h>
#include <time.h>

static uint8_t sbox[256], inverse_sbox[256];
static uint32_t columns[4][256], inverse_columns[4][256];

static uint8_t xtime(uint8_t b) { return (uint8_t)(b << 1 ^ (b >> 7) * 0x1b); }

static uint8_t product(uint8_t a, uint8_t b) {
    uint8_t sum = 0;
    for (; a; a >>= 1, b = xtime(b))
        if (a & 1) sum ^= b;
    return sum;
}

static uint32_t word(uint8_t a, uint8_t b, uint8_t c, uint8_t d) {
    return (uint32_t)a << 24 | (uint32_t)b << 16 | (uint32_t)c << 8 | d;
}

static uint32_t turned_right(uint32_t w, int bits) { return bits ? w >> bits | w << (32 - bits) : w; }

static void make_tables(void) {
    for (int b = 0; b < 256; b++) {
        uint8_t inverse = 0;
        for (int c = 1; c < 256 && !inverse; c++)
            if (product((uint8_t)b, (uint8_t)c) == 1) inverse = (uint8_t)c;
        uint8_t s = 0x63;
        for (int k = 0; k < 5; k++) s ^= (uint8_t)(inverse << k | inverse >> (8 - k));
        sbox[b] = s;
        inverse_sbox[s] = (uint8_t)b;
    }
    for (int b = 0; b < 256; b++)
        for (int k = 0; k < 4; k++) {
            uint8_t s = sbox[b], t = inverse_sbox[b];
            columns[k][b] = turned_right(word(product(2, s), s, s, product(3, s)), 8 * k);
            inverse_columns[k][b] =
                turned_right(word(product(14, t), product(9, t), product(13, t), product(11, t)), 8 * k);
        }
}

struct schedule {
    uint32_t forward[44], backward[44];
};

static void expand(struct schedule *schedule, const uint8_t *key) {
    uint32_t *w = schedule->forward;
    uint8_t constant = 1;
    for (int i = 0; i < 4; i++) w[i] = word(key[4 * i], key[4 * i + 1], key[4 * i + 2], key[4 * i + 3]);
    for (int i = 4; i < 44; i++) {
        uint32_t t = w[i - 1];
        if (i % 4 == 0) {
            t = t << 8 | t >> 24;
            t = word(sbox[t >> 24], sbox[t >> 16 & 255], sbox[t >> 8 & 255], sbox[t & 255]);
            t ^= (uint32_t)constant << 24;
            constant = xtime(constant);
        }
        w[i] = w[i - 4] ^ t;
    }
    for (int i = 0; i < 44; i++) {
        uint32_t t = w[i];
        schedule->backward[i] = i < 4 || i >= 40
            ? t
            : inverse_columns[0][sbox[t >> 24]] ^ inverse_columns[1][sbox[t >> 16 & 255]]
                ^ inverse_columns[2][sbox[t >> 8 & 255]] ^ inverse_columns[3][sbox[t & 255]];
    }
}

static uint32_t load(const uint8_t *p) { return word(p[0], p[1], p[2], p[3]); }

static void store(uint8_t *p, uint32_t w) {
    p[0] = (uint8_t)(w >> 24);
    p[1] = (uint8_t)(w >> 16);
    p[2] = (uint8_t)(w >> 8);
    p[3] = (uint8_t)w;
}

#define ROUND(t, x, y, z, u) (t[0][x >> 24] ^ t[1][y >> 16 & 255] ^ t[2][z >> 8 & 255] ^ t[3][u & 255])
#define LAST(s, x, y, z, u) word(s[x >> 24], s[y >> 16 & 255], s[z >> 8 & 255], s[u & 255])

static void encrypt(const struct schedule *schedule, const uint8_t *in, uint8_t *out) {
    const uint32_t *w = schedule->forward;
    uint32_t a = load(in) ^ w[0], b = load(in + 4) ^ w[1], c = load(in + 8) ^ w[2], d = load(in + 12) ^ w[3];
    for (int n = 1; n < 10; n++) {
        w += 4;
        uint32_t e = ROUND(columns, a, b, c, d) ^ w[0], f = ROUND(columns, b, c, d, a) ^ w[1];
        uint32_t g = ROUND(columns, c, d, a, b) ^ w[2], h = ROUND(columns, d, a, b, c) ^ w[3];
        a = e, b = f, c = g, d = h;
    }
    w += 4;
    store(out, LAST(sbox, a, b, c, d) ^ w[0]);
    store(out + 4, LAST(sbox, b, c, d, a) ^ w[1]);
    store(out + 8, LAST(sbox, c, d, a, b) ^ w[2]);
    store(out + 12, LAST(sbox, d, a, b, c) ^ w[3]);
}

static void decrypt(const struct schedule *schedule, const uint8_t *in, uint8_t *out) {
    const uint32_t *w = schedule->backward + 40;
    uint32_t a = load(in) ^ w[0], b = load(in + 4) ^ w[1], c = load(in + 8) ^ w[2], d = load(in + 12) ^ w[3];
    for (int n = 1; n < 10; n++) {
        w -= 4;
        uint32_t e = ROUND(inverse_columns, a, d, c, b) ^ w[0], f = ROUND(inverse_columns, b, a, d, c) ^ w[1];
        uint32_t g = ROUND(inverse_columns, c, b, a, d) ^ w[2], h = ROUND(inverse_columns, d, c, b, a) ^ w[3];
        a = e, b = f, c = g, d = h;
    }
    w -= 4;
    store(out, LAST(inverse_sbox, a, d, c, b) ^ w[0]);
    store(out + 4, LAST(inverse_sbox, b, a, d, c) ^ w[1]);
    store(out + 8, LAST(inverse_sbox, c, b, a, d) ^ w[2]);
    store(out + 12, LAST(inverse_sbox, d, c, b, a) ^ w[3]);
}

static uint8_t *seal(const struct schedule *schedule, const uint8_t *iv, const uint8_t *text, size_t length) {
    size_t whole = length / 16;
    uint8_t *sealed = malloc(16 * whole + 16), block[16];
    const uint8_t *previous = iv;
    for (size_t j = 0; j <= whole; j++) {
        size_t there = j < whole ? 16 : length % 16;
        for (size_t i = 0; i < 16; i++)
            block[i] = previous[i] ^ (i < there ? text[16 * j + i] : (uint8_t)(16 - there));
        encrypt(schedule, block, sealed + 16 * j);
        previous = sealed + 16 * j;
    }
    return sealed;
}

static uint8_t *unseal(const struct schedule *schedule, const uint8_t *iv, const uint8_t *bytes, size_t length) {
    uint8_t *text = malloc(length);
    for (size_t j = 0; j < length / 16; j++) {
        const uint8_t *previous = j ? bytes + 16 * (j - 1) : iv;
        decrypt(schedule, bytes + 16 * j, text + 16 * j);
        for (int i = 0; i < 16; i++) text[16 * j + (size_t)i] ^= previous[i];
    }
    return text;
}

static double now(void) {
    struct timespec time;
    clock_gettime(CLOCK_MONOTONIC, &time);
    return (double)time.tv_sec * 1e9 + (double)time.tv_nsec;
}

int main(int count, char **words) {
    if (count < 2) return 0;
    size_t size = strtoul(words[1], NULL, 10), total = (size_t)1 << 26;
    if (size == 0 || size > total) return 0;
    uint8_t key[16], iv[16], *text = malloc(size), sum = 0;
    memset(key, 7, 16), memset(iv, 9, 16), memset(text, 5, size);
    struct schedule schedule;
    make_tables();
    expand(&schedule, key);
    size_t times = total / size, length = size / 16 * 16 + 16;
    uint8_t *sealed = seal(&schedule, iv, text, size);
    double start = now();
    for (size_t k = 0; k < times; k++) {
        uint8_t *made = seal(&schedule, iv, text, size);
        sum ^= made[0];
        free(made);
    }
    double sealing = now() - start;
    start = now();
    for (size_t k = 0; k < times; k++) {
        uint8_t *made = unseal(&schedule, iv, sealed, length);
        sum ^= made[0];
        free(made);
    }
    double opening = now() - start;
    fprintf(stderr, "%s", sum == 255 ? " " : "");
    printf("%zu %.2f %.2f\n", size, sealing / (double)(times * size), opening / (double)(times * size));
    return 0;
}
