// The whole-number work of a Taylor step, in plain C: sparse rows alone, one floor a coefficient. Numbers are in units
// of 2^-64. The least degree after which nothing larger than a unit follows ends the step.
#ifndef TAYLOR_STEP_H
#define TAYLOR_STEP_H

#include <string.h>

typedef __int128 i128;
typedef unsigned __int128 u128;

enum { DEGREE = 24, BLOCKS = 36 };

/* the most rows, and numbers by powers of x, that a program fills */
#ifndef MOST_ROWS
#define MOST_ROWS 12
#define MOST_POWERS 9
#endif

typedef struct {
    int width;
    int columns[MOST_ROWS + 1];
    i128 numbers[(MOST_ROWS + 1) * MOST_POWERS];
    i128 strip[BLOCKS * (MOST_ROWS + 1)];
} Row;

typedef struct {
    int dim, degree;
    Row rows[MOST_ROWS];
    i128 newest[MOST_ROWS + 1];
} System;

static void write_blocks(System *s, int block) {
    for (int i = 0; i < s->dim; i++) {
        Row *r = &s->rows[i];
        for (int p = 0; p < r->width; p++) r->strip[block * r->width + p] = s->newest[r->columns[p]];
    }
}

static void begin(System *s, const i128 *mid) {
    for (int i = 0; i < s->dim; i++) s->newest[i] = mid[i];
    s->newest[s->dim] = (i128)1 << 64;
    for (int i = 0; i < s->dim; i++) {
        Row *r = &s->rows[i];
        memset(&r->strip[25 * r->width], 0, sizeof(i128) * s->degree * r->width);
    }
    write_blocks(s, 24);
    s->newest[s->dim] = 0;
}

static i128 dot(const i128 *a, const i128 *v, int count, int div) {
    i128 sum = 0;
    for (int i = 0; i < count; i++) sum += a[i] * v[i];
    long long whole = (long long)(sum >> 64);
    long long q = whole / div;
    if (whole % div < 0) q--;
    return q;
}

static u128 size(i128 x) { return x < 0 ? -(u128)x : (u128)x; }

static int top_power(const System *s) {
    int top = 0;
    for (int i = 0; i < s->dim; i++)
        for (int k = (s->degree + 1) * s->rows[i].width - 1; k >= 0; k--)
            if (s->rows[i].numbers[k] != 0) {
                if (k / s->rows[i].width > top) top = k / s->rows[i].width;
                break;
            }
    return top;
}

/* the coefficients are small for as many powers back as numbers are stored */
static int may_stop(const u128 *sizes, int k, int top) {
    if (k < (top < 8 ? 8 : top + 1)) return 0;
    u128 bound = 64;
    for (int m = 0; m <= top; m++, bound *= 8)
        if (sizes[k - m] > bound) return 0;
    return 1;
}

static int step(System *s, i128 *mid) {
    int top = top_power(s);
    u128 sizes[DEGREE + 1];
    begin(s, mid);
    for (int k = 0; k < DEGREE; k++) {
        for (int i = 0; i < s->dim; i++) {
            Row *r = &s->rows[i];
            s->newest[i] = dot(r->numbers, &r->strip[(24 - k) * r->width], (s->degree + 1) * r->width, k + 1);
        }
        for (int i = 0; i < s->dim; i++) mid[i] += s->newest[i];
        sizes[k + 1] = 0;
        for (int i = 0; i < s->dim; i++)
            if (size(s->newest[i]) > sizes[k + 1]) sizes[k + 1] = size(s->newest[i]);
        if (may_stop(sizes, k + 1, top)) return k + 1;
        write_blocks(s, 23 - k);
    }
    return DEGREE;
}

#endif
