// First moments, second moments and variances of a product by Norberg's equations, in plain C: the same whole-number
// work as the tool's. Each cell's equations are filled in units of 2^-70 and stored in units of 2^-64, first moments
// divided by 2^g and second moments by 4^g; a Taylor step goes back over each cell. The ledgers of bounds and radii are
// left out: the scale g is an argument.
//   moments file PRODUCT           prints the product file
//   moments values PRODUCT G EVERY prints three lines for each date and state, of midpoints that are rounded down: the
//                                  first moment in millionths, and the second moment and the variance whole
// PRODUCT is generated-7 or twelve.
#include <stdlib.h>

#define MOST_ROWS 24
#define MOST_POWERS 12

#include "cell_numbers.h"

/* first moments, and behind them second moments, in a row of numbers */
enum { BOTH = 2 * MOST_STATES };

/* numbers of 2^-70 towards 0 in units of 2^-64 */
static i128 cut(i128 number) { return number < 0 ? -(-number >> 6) : number >> 6; }

static void put_cut(Row *r, int column, const i128 *numbers, int count, int times) {
    int k = column_of(r, column);
    for (int m = 0; m < count; m++) r->numbers[m * r->width + k] = cut(times * numbers[m]);
}

/* power m of a product of numbers with powers up to these, the second factor in units of 2^-64 */
static i128 product_at(const i128 *a, int most_a, const i128 *b, int most_b, int m) {
    i128 sum = 0;
    for (int k = m < most_b ? 0 : m - most_b; k <= m && k <= most_a; k++) sum += a[k] * b[m - k];
    return sum >> 64;
}

/* what a state pays and what leaves it, power by power: at first its sojourn rate and its interest */
typedef struct {
    i128 leaving[6], second_leaving[6], sojourn[4], paid[MOST_POWER], paid_twice[MOST_POWERS];
} State;

static void begin_state(State *s, const Piece *sojourn, const i128 *interest, int g, int month, int cell) {
    memset(s, 0, sizeof *s);
    for (int m = 0; m < 6; m++) {
        s->leaving[m] = interest[m];
        s->second_leaving[m] = 2 * interest[m];
    }
    amount_numbers(sojourn, month, cell, 64, (YEAR * YEAR_3) << g, s->sojourn);
    memcpy(s->paid, s->sojourn, sizeof s->sojourn);
}

/* a transition: in the row of the first moment its intensity and what it pays, in that of the second moment its
   intensity, twice what it pays, by the first moment that follows, and what it pays times its sum */
static void fill_link(System *s, State *from, const Product *p, const Link *l, int g, int month, int cell) {
    Row *first = &s->rows[l->from], *second = &s->rows[p->states + l->from];
    i128 rate[6], sum[4], paid[MOST_POWER];
    curve_numbers(&l->rate, p->den, month, cell, rate);
    amount_numbers(&l->sum, month, cell, 1, YEAR_3 << g, sum);
    for (int m = 0; m < MOST_POWER; m++) paid[m] = product_at(rate, 5, sum, 3, m);
    for (int m = 0; m < MOST_POWERS; m++) from->paid_twice[m] += product_at(paid, MOST_POWER - 1, sum, 3, m);
    for (int m = 0; m < MOST_POWER; m++) from->paid[m] += paid[m];
    for (int m = 0; m < 6; m++) {
        from->leaving[m] += rate[m];
        from->second_leaving[m] += rate[m];
    }
    put(first, l->to, rate, 6, 1);
    put(second, p->states + l->to, rate, 6, 1);
    put_cut(second, l->to, paid, MOST_POWER, 2);
}

static void fill(System *s, const Product *p, int g, int month, int cell) {
    State states[MOST_STATES];
    i128 interest[6];
    curve_numbers(&p->interest, p->den, month, cell, interest);
    for (int i = 0; i < p->states; i++) begin_state(&states[i], &p->sojourn[i], interest, g, month, cell);
    for (int e = 0; e < p->links; e++) fill_link(s, &states[p->link[e].from], p, &p->link[e], g, month, cell);
    for (int i = 0; i < p->states; i++) {
        Row *first = &s->rows[i], *second = &s->rows[p->states + i];
        put(first, i, states[i].leaving, 6, -1);
        put(first, s->dim, states[i].paid, MOST_POWER, 1);
        put(second, p->states + i, states[i].second_leaving, 6, -1);
        put_cut(second, i, states[i].sojourn, 4, 2);
        put_cut(second, s->dim, states[i].paid_twice, MOST_POWERS, 1);
    }
}

static int has_place(const Product *p, int row, int column) {
    int from = row % p->states, to = column % p->states;
    if (column == 2 * p->states) return 1;
    if (row < p->states && column >= p->states) return 0;
    return from == to || is_linked(p, from, to);
}

static void make_system(System *s, const Product *p) {
    s->dim = 2 * p->states;
    s->degree = MOST_POWERS - 1;
    for (int row = 0; row < s->dim; row++)
        for (int column = 0; column <= s->dim; column++)
            if (has_place(p, row, column)) s->rows[row].columns[s->rows[row].width++] = column;
}

/* a lump l adds 2 l V + l^2 to the second moment, V being the first moment before the date's lumps, and then l to it */
static void add_lumps(const Product *p, int g, int date, i128 *mid) {
    for (int k = 0; k < p->lumps; k++)
        if (p->lump[k].month == date) {
            i128 amount = p->lump[k].amount, unit = (i128)1 << (64 - g), *first = &mid[p->lump[k].state];
            first[p->states] += (amount * (2 * *first + amount * unit)) >> g;
            *first += amount * unit;
        }
}

static i128 square_of(i128 first) { return (i128)(size(first) * size(first) >> 64); }

/* a number at the scale 4^g, whole */
static i128 whole(i128 number, int g) { return g < 32 ? number >> (64 - 2 * g) : number << (2 * g - 64); }

static void print_number(int date, const char *state, const char *what, i128 number) {
    printf("%d %s %s ", date, state, what);
    print_whole(number);
    printf("\n");
}

/* the numbers at each date that is asked for, from issue on */
static void print_rows(const Product *p, int g, int every, const i128 (*dates)[BOTH]) {
    for (int date = 0; date <= p->months; date += every)
        for (int i = 0; i < p->states; i++) {
            i128 first = dates[date][i], second = dates[date][p->states + i];
            print_number(date, p->state[i], "first", (first * 15625) >> (58 - g));
            print_number(date, p->state[i], "second", whole(second, g));
            print_number(date, p->state[i], "variance", whole(second - square_of(first), g));
        }
}

static void moments(const Product *p, int g, int every) {
    static System s;
    static i128 dates[1201][BOTH];
    i128 mid[BOTH] = {0};
    int degree = 8;
    make_system(&s, p);
    for (int month = p->months - 1; month >= 0; month--) {
        add_lumps(p, g, month + 1, mid);
        for (int cell = MONTH - 1; cell >= 0; cell--) {
            fill(&s, p, g, month, cell);
            int used = step(&s, mid);
            if (used > degree) degree = used;
        }
        memcpy(dates[month], mid, sizeof mid);
    }
    printf("degree %d scale %d\n", degree, g);
    print_rows(p, g, every, (const i128 (*)[BOTH])dates);
}

int main(int argc, char **argv) {
    static Product p;
    if (argc < 3) return 2;
    if (strcmp(argv[2], "twelve") == 0) make_twelve(&p);
    else make_generated(&p, 7);
    if (argc == 3) print_product(&p);
    else if (argc == 5) moments(&p, atoi(argv[3]), atoi(argv[4]));
    return 0;
}
