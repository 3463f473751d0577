// The numbers of a backward cell as reserves.c and moments.c fill them: curves and amounts as polynomials of x over the
// cell, in fixed units.
#ifndef CELL_NUMBERS_H
#define CELL_NUMBERS_H

#include "products.h"
#include "taylor_step.h"

enum { MONTH = 32, YEAR = 384, MOST_POWER = 9 };

static const i128 YEAR_3 = (i128)YEAR * YEAR * YEAR;

/* the floor of num * 2^bits / den, by two division steps of 32 bits and what is left */
static i128 floor_div(i128 num, i128 den) {
    i128 q = num / den;
    return num % den < 0 ? q - 1 : q;
}

static i128 from_fraction(i128 num, i128 den) {
    if (num == 0) return 0;
    i128 high = floor_div(num << 32, den);
    i128 left = (num << 32) - high * den;
    return (high << 32) + floor_div(left << 32, den);
}

/* c0 + c1 t + .. in a cell, as numerators over YEAR^degree of powers of x: t is (b - x) / YEAR years */
static void cell_of(const long long *c, int degree, int from, int month, int cell, i128 *n) {
    i128 b = MONTH * (month - from) + cell + 1, unit = 1;
    for (int i = degree; i >= 0; i--, unit *= YEAR) n[i] = c[i] * unit;
    for (int i = 0; i < degree; i++)
        for (int k = degree - 1; k >= i; k--) n[k] += b * n[k + 1];
    for (int i = 1; i <= degree; i += 2) n[i] = -n[i];
}

static const Piece *piece_at(const Curve *curve, int month) {
    int k = 0;
    while (k + 1 < curve->count && curve->pieces[k + 1].from <= month) k++;
    return &curve->pieces[k];
}

/* a curve in units of 2^-70 */
static void curve_numbers(const Curve *curve, long long den, int month, int cell, i128 *out) {
    const Piece *piece = piece_at(curve, month);
    cell_of(piece->c, 5, piece->from, month, cell, out);
    for (int m = 0; m <= 5; m++) out[m] = from_fraction(64 * out[m], den * YEAR_3 * YEAR_3);
}

/* an amount, divided by its unit, which is given 64 times too small for units of 2^-70 */
static void amount_numbers(const Piece *step, int month, int cell, i128 times, i128 unit, i128 *out) {
    cell_of(step->c, 3, step->from, month, cell, out);
    for (int m = 0; m <= 3; m++) out[m] = from_fraction(times * out[m], unit);
}

static int column_of(const Row *r, int column) {
    int k = 0;
    while (r->columns[k] != column) k++;
    return k;
}

static void put(Row *r, int column, const i128 *numbers, int count, int sign) {
    int k = column_of(r, column);
    for (int m = 0; m < count; m++) r->numbers[m * r->width + k] = (sign * numbers[m] + 32) >> 6;
}

static int is_linked(const Product *p, int row, int column) {
    for (int e = 0; e < p->links; e++)
        if (p->link[e].from == row && p->link[e].to == column) return 1;
    return 0;
}

static void print_whole(i128 x) {
    char digits[48];
    int n = 0;
    u128 left = size(x);
    do digits[n++] = '0' + (int)(left % 10); while (left /= 10);
    if (x < 0) putchar('-');
    while (n) putchar(digits[--n]);
}

#endif
