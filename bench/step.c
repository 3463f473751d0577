// Taylor steps of two systems, in plain C, one after another.
// Arguments: the dimension (3 or 12) and the number of steps. Prints what step_bench prints.
#include <stdio.h>
#include <stdlib.h>

#include "taylor_step.h"

static const int LINKS_3[][2] = {{0, 1}, {1, 0}, {1, 2}, {2, 1}};

static i128 value(int row, int place, int m) {
    unsigned long long mixed = (row * 31 + place * 17 + m * 7 + 5) * 2654435761ULL % (1ULL << 40);
    return (i128)mixed - ((i128)1 << 39);
}

static int is_linked(int dim, int row, int col) {
    if (dim == 12) return (row + 1) % 12 == col || (col + 1) % 12 == row;
    for (int k = 0; k < 4; k++)
        if (LINKS_3[k][0] == row && LINKS_3[k][1] == col) return 1;
    return 0;
}

static void fill(System *s, int dim, int degree) {
    s->dim = dim;
    s->degree = degree;
    for (int row = 0; row < dim; row++) {
        Row *r = &s->rows[row];
        r->width = 0;
        for (int col = 0; col <= dim; col++)
            if (col == row || col == dim || is_linked(dim, row, col)) r->columns[r->width++] = col;
        for (int m = 0; m <= degree; m++)
            for (int place = 0; place < r->width; place++)
                r->numbers[m * r->width + place] = value(row, place, m);
    }
}

static void print(i128 x) {
    char digits[48];
    int n = 0;
    u128 left = x < 0 ? -(u128)x : (u128)x;
    do digits[n++] = '0' + (int)(left % 10); while (left /= 10);
    if (x < 0) putchar('-');
    while (n) putchar(digits[--n]);
    putchar('\n');
}

int main(int argc, char **argv) {
    if (argc != 3) return 2;
    int dim = atoi(argv[1]) == 3 ? 3 : 12;
    int rounds = atoi(argv[2]);
    static System s;
    fill(&s, dim, dim == 3 ? 3 : 5);
    u128 total = 0;
    for (int round = 0; round < rounds; round++) {
        i128 mid[MOST_ROWS];
        for (int i = 0; i < dim; i++) mid[i] = ((i128)1 << 64) - round;
        step(&s, mid);
        for (int i = 0; i < dim; i++) total = total * 31 + (u128)mid[i];
    }
    printf("%d %d: ", dim, rounds);
    print((i128)total);
    return 0;
}
