// Reserves of a product by Thiele's equation, in plain C: the same whole-number work as the tool's. Each cell's
// equation is filled in units of 2^-70 and stored to the nearest unit of 2^-64, values divided by 2^g; a Taylor step
// goes back over each cell. The ledgers of bounds and radii are left out: the scale g is an argument.
//   reserves file PRODUCT           prints the product file
//   reserves values PRODUCT G EVERY prints a line for each date and state: the midpoint in millionths, rounded down
// PRODUCT is generated-7, twelve or ring.
#include <stdlib.h>

#include "cell_numbers.h"

static void fill(System *s, const Product *p, int g, int month, int cell) {
    i128 interest[6], leaving[MOST_STATES][6], free_numbers[MOST_STATES][MOST_POWER] = {{0}};
    curve_numbers(&p->interest, p->den, month, cell, interest);
    for (int i = 0; i < p->states; i++) {
        memcpy(leaving[i], interest, sizeof interest);
        amount_numbers(&p->sojourn[i], month, cell, 64, (YEAR * YEAR_3) << g, free_numbers[i]);
    }
    for (int e = 0; e < p->links; e++) {
        const Link *l = &p->link[e];
        i128 rate[6], sum[4];
        curve_numbers(&l->rate, p->den, month, cell, rate);
        amount_numbers(&l->sum, month, cell, 1, YEAR_3 << g, sum);
        put(&s->rows[l->from], l->to, rate, 6, 1);
        for (int m = 0; m < 6; m++) leaving[l->from][m] += rate[m];
        for (int m = 0; m < MOST_POWER; m++) {
            i128 paid = 0;
            for (int a = m < 3 ? 0 : m - 3; a <= m && a < 6; a++) paid += rate[a] * sum[m - a];
            free_numbers[l->from][m] += paid >> 64;
        }
    }
    for (int i = 0; i < p->states; i++) {
        put(&s->rows[i], i, leaving[i], 6, -1);
        put(&s->rows[i], p->states, free_numbers[i], MOST_POWER, 1);
    }
}

static void make_system(System *s, const Product *p) {
    s->dim = p->states;
    s->degree = MOST_POWER - 1;
    for (int row = 0; row < s->dim; row++)
        for (int column = 0; column <= s->dim; column++)
            if (column == row || column == s->dim || is_linked(p, row, column))
                s->rows[row].columns[s->rows[row].width++] = column;
}

static void add_lumps(const Product *p, int g, int date, i128 *mid) {
    for (int k = 0; k < p->lumps; k++)
        if (p->lump[k].month == date) mid[p->lump[k].state] += (i128)p->lump[k].amount << (64 - g);
}

/* the numbers at each date that is asked for, from issue on */
static void print_rows(const Product *p, int g, int every, const i128 (*dates)[MOST_STATES]) {
    for (int date = 0; date <= p->months; date += every)
        for (int i = 0; i < p->states; i++) {
            printf("%d %s ", date, p->state[i]);
            print_whole((dates[date][i] * 15625) >> (58 - g));
            printf("\n");
        }
}

static void reserves(const Product *p, int g, int every) {
    static System s;
    static i128 dates[1201][MOST_STATES];
    i128 mid[MOST_STATES] = {0};
    int degree = 8;
    make_system(&s, p);
    for (int month = p->months - 1; month >= 0; month--) {
        add_lumps(p, g, month + 1, mid);
        for (int cell = MONTH - 1; cell >= 0; cell--) {
            fill(&s, p, g, month, cell);
            int used = step(&s, mid);
            if (used > degree) degree = used;
        }
        memcpy(dates[month], mid, sizeof mid);
    }
    printf("degree %d scale %d\n", degree, g);
    print_rows(p, g, every, (const i128 (*)[MOST_STATES])dates);
}

int main(int argc, char **argv) {
    static Product p;
    if (argc < 3) return 2;
    if (strcmp(argv[2], "twelve") == 0) make_twelve(&p);
    else if (strcmp(argv[2], "ring") == 0) make_ring(&p);
    else make_generated(&p, 7);
    if (argc == 3) print_product(&p);
    else if (argc == 5) reserves(&p, atoi(argv[3]), atoi(argv[4]));
    return 0;
}
