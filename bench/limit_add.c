// The limit of `add` by hand: frames found by memmem, sections read, the fields of the last descriptors kept by their bits,
// canonical messages put one behind the other, keys of WMO stations held as numbers and sorted, the archive written. Plain
// data, editions 4, stations and moments that are there; no refusals beyond lengths, no growth of memory that is refused.
// usage: limit_add TABLE_B OUT FILE   (as limit)
#define _GNU_SOURCE
#include <fcntl.h>
#include <stdint.h>
#include <stdio.h>
#include <stdlib.h>
#include <string.h>
#include <unistd.h>
typedef struct { uint64_t high, low; uint32_t sub, update; uint64_t from, n; } Entry;
enum { BLOCK, STATION, YEAR, MONTH, DAY, HOUR, MINUTE, SECOND, PARTS };
static const int asked[PARTS] = {257, 258, 1025, 1026, 1027, 1028, 1029, 1030};
static int width[65536]; static uint8_t *kept_octets; static Entry *entries;
static int is_before(const Entry *a, const Entry *b) { return a->high != b->high ? a->high < b->high : a->low != b->low ? a->low < b->low : a->sub < b->sub; }
static int is_same(const Entry *a, const Entry *b) { return a->high == b->high && a->low == b->low && a->sub == b->sub; }
static int is_less(const Entry *a, const Entry *b) {
    if (a->update != b->update) return a->update < b->update;
    int c = memcmp(kept_octets + a->from, kept_octets + b->from, a->n < b->n ? a->n : b->n); return c ? c < 0 : a->n < b->n;
}
static void sort(Entry *e, long n) {
    while (n > 16) {
        Entry *m = e + n / 2, *l = e + n - 1, t, p = is_before(e, m) ? is_before(m, l) ? *m : is_before(e, l) ? *l : *e : is_before(e, l) ? *e : is_before(m, l) ? *l : *m;
        long i = -1, j = n;
        for (;;) { while (is_before(e + ++i, &p)); while (is_before(&p, e + --j)); if (i >= j) break; t = e[i]; e[i] = e[j]; e[j] = t; }
        sort(e, j + 1); e += j + 1; n -= j + 1;
    }
    for (long i = 1; i < n; i++) { Entry t = e[i]; long j = i; for (; j && is_before(&t, e + j - 1); j--) e[j] = e[j - 1]; e[j] = t; }
}
static uint64_t bits_at(const uint8_t *o, uint64_t bit, int w) { uint64_t x = 0; for (uint64_t k = bit / 8; k <= (bit + w - 1) / 8; k++) x = x << 8 | o[k]; return x >> (7 - (bit + w - 1) % 8) & ((1ull << w) - 1); }
int main(int c, char **v) {
    FILE *t = fopen(v[1], "r"); char line[4096];
    while (fgets(line, sizeof line, t)) if (line[0] >= '0' && line[0] <= '9') { int f = atoi(line); char *w = strrchr(line, ','); width[(f / 100000) << 14 | (f / 1000 % 100) << 8 | f % 1000] = atoi(w + 1); }
    int seq[3][6] = {{257, 258}, {1025, 1026, 1027}, {1028, 1029}};
    FILE *f = fopen(v[3], "rb"); fseek(f, 0, SEEK_END); size_t n = ftell(f); rewind(f); uint8_t *o = malloc(n + 8); if (fread(o, 1, n, f) != n) return 1;
    uint8_t kept[4096]; size_t kept_n = 0, room = 1 << 20, used = 0, most = 1 << 14, count_all = 0; uint64_t kept_bits = 0, at = 0, frames = 0; int place[PARTS], wide[PARTS];
    kept_octets = malloc(room); entries = malloc(most * sizeof *entries);
    while (at + 12 <= n) {
        uint8_t *p = memmem(o + at, n - at, "BUFR", 4); if (!p) break;
        size_t q = p - o, L = p[4] << 16 | p[5] << 8 | p[6];
        if (L < 12 || q + L > n || memcmp(p + L - 4, "7777", 4)) { at = q + 1; continue; }
        uint8_t *s1 = p + 8; size_t l1 = s1[0] << 16 | s1[1] << 8 | s1[2]; uint8_t *s3 = s1 + l1;
        size_t l3 = s3[0] << 16 | s3[1] << 8 | s3[2], count = s3[4] << 8 | s3[5]; uint8_t *s4 = s3 + l3; size_t l4 = s4[0] << 16 | s4[1] << 8 | s4[2];
        if (l1 < 22 || l1 + l3 + l4 + 12 != L || s3[6] & 64) return 2;
        if (l3 != kept_n || memcmp(s3 + 7, kept + 7, l3 - 7)) {
            memcpy(kept, s3, l3); kept_n = l3; kept_bits = 0; memset(wide, 0, sizeof wide);
            for (size_t i = 7; i + 1 < l3; i += 2) {
                int d = s3[i] << 8 | s3[i + 1], one[2] = {d}, *list = d == (3 << 14 | 257) ? seq[0] : d == (3 << 14 | 267) ? seq[1] : d == (3 << 14 | 268) ? seq[2] : one;
                for (; *list; list++) { for (int k = 0; k < PARTS; k++) if (asked[k] == *list && !wide[k]) { place[k] = kept_bits; wide[k] = width[*list]; } kept_bits += width[*list]; }
            }
        }
        if ((kept_bits * count + 7) / 8 > l4 - 4) return 3;
        size_t m = (kept_bits + 7) / 8, list = (l3 - 7) / 2 * 2, all = 8 + 22 + 7 + list + 4 + m + 4;
        for (size_t k = 0; k < count; k++) {
            uint64_t first = kept_bits * k, part[PARTS];
            for (int i = 0; i < PARTS; i++) part[i] = wide[i] ? bits_at(s4 + 4, first + place[i], wide[i]) : 0;
            if (used + all > room) kept_octets = realloc(kept_octets, room *= 2);
            if (count_all == most) entries = realloc(entries, (most *= 2) * sizeof *entries);
            uint8_t *e = kept_octets + used, head[8] = {'B', 'U', 'F', 'R', all >> 16, all >> 8, all, 4}, three[7] = {(7 + list) >> 16, (7 + list) >> 8, 7 + list, 0, 0, 1, s3[6] & 128}, four[4] = {(4 + m) >> 16, (4 + m) >> 8, 4 + m, 0};
            memcpy(e, head, 8); memcpy(e + 8, s1, 22); e[10] = 22; e[8] = e[9] = 0; e[17] = 0; memcpy(e + 30, three, 7); memcpy(e + 37, s3 + 7, list); memcpy(e + 37 + list, four, 4);
            uint8_t *d = e + 41 + list; if (first % 8 == 0) memcpy(d, s4 + 4 + first / 8, m); else for (size_t i = 0; i < m; i++) d[i] = s4[4 + first / 8 + i] << first % 8 | s4[5 + first / 8 + i] >> (8 - first % 8);
            if (kept_bits % 8) d[m - 1] &= 0xFF << (8 - kept_bits % 8);
            memcpy(d + m, "7777", 4);
            entries[count_all++] = (Entry){(uint64_t)s1[4] << 56 | (uint64_t)s1[5] << 48 | (uint64_t)s1[10] << 40 | (uint64_t)s1[11] << 32 | (uint64_t)s1[12] << 24 | part[BLOCK] << 8 | part[STATION] >> 8,
                part[STATION] << 56 | part[YEAR] << 40 | part[MONTH] << 32 | part[DAY] << 24 | part[HOUR] << 16 | part[MINUTE] << 8 | part[SECOND], s1[6] << 8 | s1[7], s1[8], used, all};
            used += all;
        }
        at = q + L; frames++;
    }
    sort(entries, count_all);
    int w = open(v[2], O_WRONLY | O_CREAT | O_TRUNC, 0644); static uint8_t out[1 << 16]; size_t held = 0, reports = 0;
    for (size_t i = 0, j; i < count_all; i = j, reports++) {
        Entry *best = entries + i; for (j = i + 1; j < count_all && is_same(entries + i, entries + j); j++) if (is_less(best, entries + j)) best = entries + j;
        if (held + best->n > sizeof out) { if (write(w, out, held) < 0) return 5; held = 0; }
        memcpy(out + held, kept_octets + best->from, best->n); held += best->n;
    }
    printf("frames %lu refused 0 reports %zu\n", frames, reports); return write(w, out, held) < 0;
}
