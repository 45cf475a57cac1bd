// The limit of `bufr-select` by hand, for compressed messages of the sequence 311005 (reports of aircraft), ten columns: frames
// by memmem, each column read down, digits written two at a time. No refusals. A measure, no tool.
// usage: limit_select TABLE_B FILE   (TABLE_B: the CSV with scale, reference, width last)
#define _GNU_SOURCE
#include <stdint.h>
#include <stdio.h>
#include <stdlib.h>
#include <string.h>
#include <unistd.h>
typedef struct { int scale, width, shown; int64_t reference; } Field;
typedef struct { size_t bit; uint64_t first; int width; } Column;
static const int fxy[18] = {1008, 1023, 5001, 6001, 4001, 4002, 4003, 4004, 4005, 4006, 7010, 8009, 11001, 11002, 11031, 11036, 12101, 33025};
static const int shown[18] = {1, 0, 0, 0, 1, 1, 1, 1, 1, 1, 0, 0, 1, 1, 0, 0, 1, 0};
static Field field[18];
static char out[1 << 17]; static size_t held;
static void flush(void) { if (held && write(1, out, held) < 0) exit(1); held = 0; }
static const char two[] = "00010203040506070809101112131415161718192021222324252627282930313233343536373839404142434445464748495051525354555657585960616263646566676869707172737475767778798081828384858687888990919293949596979899";
static char *digits(char *p, uint64_t n) { char t[24]; int k = 24; while (n >= 100) { k -= 2; memcpy(t + k, two + n % 100 * 2, 2); n /= 100; } if (n >= 10) { k -= 2; memcpy(t + k, two + n * 2, 2); } else t[--k] = '0' + n; memcpy(p, t + k, 24 - k); return p + 24 - k; }
static char *decimal(char *p, int64_t n, int scale) {
    if (n < 0) { *p++ = '-'; n = -n; }
    if (scale <= 0) return digits(p, n);
    uint64_t ten = 1; for (int i = 0; i < scale; i++) ten *= 10;
    p = digits(p, n / ten); *p++ = '.'; uint64_t r = n % ten; for (int i = scale; i--; r /= 10) p[i] = '0' + r % 10; return p + scale;
}
static uint64_t take(const uint8_t *o, size_t bit, int w) { if (!w) return 0; uint64_t x; memcpy(&x, o + (bit >> 3), 8); return __builtin_bswap64(x) << (bit & 7) >> (64 - w); }
int main(int c, char **v) {
    FILE *t = fopen(v[1], "r"); char line[4096];
    while (fgets(line, sizeof line, t)) if (line[0] == '0') for (int k = 0; k < 18; k++) if (atoi(line) == fxy[k]) {
        char *a[3], *e = line + strlen(line); for (int i = 3; i--;) { *e = 0; e = strrchr(line, ','); a[i] = e + 1; }
        field[k] = (Field){atoi(a[0]), atoi(a[2]), shown[k], atoll(a[1])};
    }
    FILE *f = fopen(v[2], "rb"); fseek(f, 0, SEEK_END); size_t n = ftell(f); rewind(f); uint8_t *o = calloc(n + 8, 1); if (fread(o, 1, n, f) != n) return 1;
    char *e = out + sprintf(out, "001008,004001,004002,004003,004004,004005,004006,011001,011002,012101\n");
    for (size_t at = 0; at + 12 <= n;) {
        uint8_t *p = memmem(o + at, n - at, "BUFR", 4); if (!p) break;
        size_t q = p - o, L = p[4] << 16 | p[5] << 8 | p[6];
        if (L < 12 || q + L > n || memcmp(p + L - 4, "7777", 4)) { at = q + 1; continue; }
        uint8_t *s1 = p + 8, *s3 = s1 + (s1[0] << 16 | s1[1] << 8 | s1[2]), *s4 = s3 + (s3[0] << 16 | s3[1] << 8 | s3[2]);
        size_t count = s3[4] << 8 | s3[5], bit = 32; Column column[18];
        for (int k = 0; k < 18; k++) {
            int w = field[k].width, text = fxy[k] == 1008, more;
            column[k].first = text ? 0 : take(s4, bit, w); column[k].bit = bit; bit += w;
            column[k].width = take(s4, bit, 6) * (text ? 8 : 1); bit += 6;
            if (column[k].width || !text) column[k].bit = bit;
            bit += (size_t)column[k].width * count;
        }
        for (size_t s = 0; s < count; s++) {
            for (int k = 0; k < 18; k++) {
                if (!field[k].shown) continue;
                Column *g = column + k; size_t b = g->bit + s * g->width; int w = field[k].width;
                if (k == 0) {
                    char name[64]; int length = w / 8, all = 255;
                    for (int i = 0; i < length; i++) { name[i] = take(s4, b + 8 * i, 8); all &= (uint8_t)name[i]; }
                    if (all != 255) { while (length && (name[length - 1] == ' ' || !name[length - 1])) length--; memcpy(e, name, length); e += length; }
                } else {
                    uint64_t more = take(s4, b, g->width), raw = g->first + more;
                    int missing = g->width ? more == (1ull << g->width) - 1 : raw == (1ull << w) - 1;
                    *e++ = ','; if (!missing) e = decimal(e, (int64_t)raw + field[k].reference, field[k].scale);
                }
            }
            *e++ = '\n'; held = e - out; if (held > 1 << 16) { flush(); e = out; }
        }
        at = q + L;
    }
    held = e - out; flush(); return 0;
}
