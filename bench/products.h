// The products that reserves.c values, and their product files.
#ifndef PRODUCTS_H
#define PRODUCTS_H

#include <stdio.h>
#include <string.h>

enum { MOST_STATES = 12, MOST_LINKS = 132, MOST_PIECES = 65, MOST_LUMPS = 1200 };

typedef struct {
    int from;
    long long c[6];
} Piece;

typedef struct {
    int count;
    Piece pieces[MOST_PIECES];
} Curve;

/* from one state to another: its intensity, and the sum that it pays, of degree at most three */
typedef struct {
    int from, to;
    Curve rate;
    Piece sum;
} Link;

typedef struct {
    int month, state;
    long long amount;
} Lump;

typedef struct {
    const char *name;
    int format, months, states, links, lumps;
    long long den;
    Curve interest;
    Link link[MOST_LINKS];
    Lump lump[MOST_LUMPS];
    Piece sojourn[MOST_STATES];
    char state[MOST_STATES][12];
    int until; /* a premium is paid in the first state each month below this one */
} Product;

/* ---- a disability product of 65 years by seed 7: three states, cubic pieces of a year, lumps, sums */

static unsigned long long drawn;

static long long draw(int n) {
    drawn = drawn * 6364136223846793005ULL + 1442695040888963407ULL;
    return (long long)((drawn >> 33) % (unsigned long long)n);
}

static long long first_coefficient(int link, long long y) {
    switch (link) {
    case 0: return 1000000 + 10000 * y * y + draw(100000);
    case 1: return 200000000 - 3000000 * y + draw(1000000);
    case 2: return 500000 + 20000 * y * y + draw(100000);
    default: return 10000000 + 30000 * y * y + draw(1000000);
    }
}

static void make_generated(Product *p, unsigned long long seed) {
    static const int ends[4][2] = {{0, 1}, {1, 0}, {0, 2}, {1, 2}};
    drawn = seed;
    p->name = "generated-7";
    p->format = 1;
    p->months = 780;
    p->den = 1000000000;
    p->states = 3;
    strcpy(p->state[0], "active");
    strcpy(p->state[1], "disabled");
    strcpy(p->state[2], "dead");
    p->interest = (Curve){2, {{0, {30000000}}, {240, {25000000}}}};
    p->until = 480;
    long long amount = 100000 + draw(50001);
    for (int m = 1; m <= 780; m++) p->lump[p->lumps++] = (Lump){m, 1, amount};
    p->links = 4;
    for (int e = 0; e < 4; e++) {
        Link *l = &p->link[e];
        l->from = ends[e][0];
        l->to = ends[e][1];
        if (l->to == 2) l->sum.c[0] = 10000000;
        for (int y = 0; y < 65; y++) {
            Piece *piece = &l->rate.pieces[l->rate.count++];
            piece->from = 12 * y;
            piece->c[0] = first_coefficient(e, y);
            piece->c[1] = draw(1000000);
            piece->c[2] = draw(500000);
            piece->c[3] = draw(100000);
        }
    }
}

/* ---- twelve states, each of which may be left for each other one: curves of degree five and sums of degree three */

static void make_twelve(Product *p) {
    p->name = "twelve";
    p->format = 2;
    p->months = 1200;
    p->den = 1000000000000;
    p->states = 12;
    p->interest = (Curve){1, {{0, {20000000000}}}};
    for (int i = 0; i < 12; i++) {
        sprintf(p->state[i], "s%d", i);
        p->sojourn[i] = (Piece){0, {-1000 * (i + 1), 10 * i, 1, 0}};
        for (int j = 0; j < 12; j++) {
            if (i == j) continue;
            Link *l = &p->link[p->links++];
            l->from = i;
            l->to = j;
            long long k = 1 + (i * 5 + j * 7) % 11;
            l->rate = (Curve){1, {{0, {1000000000 * k, 10000000 * k, 100000 * k, 1000 * k, 10 * k, 1}}}};
            l->sum = (Piece){0, {100000 * k, 1000 * k, 10 * k, 1}};
        }
    }
    for (int m = 12; m <= 1200; m += 12) p->lump[p->lumps++] = (Lump){m, m / 12 % 12, 50000};
}

/* ---- a ring of eight states over a century, each left for the next one at the rate of 2, with 1000 a year in each:
   nothing varies */

static void make_ring(Product *p) {
    p->name = "ring";
    p->format = 1;
    p->months = 1200;
    p->den = 1000000;
    p->states = 8;
    p->interest = (Curve){1, {{0, {0}}}};
    for (int i = 0; i < 8; i++) {
        sprintf(p->state[i], "s%d", i);
        p->sojourn[i] = (Piece){0, {1000}};
        Link *l = &p->link[p->links++];
        l->from = i;
        l->to = (i + 1) % 8;
        l->rate = (Curve){1, {{0, {2000000}}}};
    }
}

/* ---- as a product file */

static void print_numbers(const long long *c, int count) {
    while (count > 1 && c[count - 1] == 0) count--;
    for (int i = 0; i < count; i++) printf(i ? ", %lld" : "[%lld", c[i]);
    printf("]");
}

static void print_curve(const char *key, const Curve *curve) {
    printf("%s = [", key);
    for (int i = 0; i < curve->count; i++) {
        printf("%s{ from = %d, c = ", i ? ", " : "", curve->pieces[i].from);
        print_numbers(curve->pieces[i].c, 6);
        printf(" }");
    }
    printf("]\n");
}

static int is_paid(const Piece *step) { return step->c[0] != 0; }

/* an amount that varies is a polynomial, which format 1 lacks */
static void print_step(const char *key, const Piece *step, int format) {
    printf("%s = [{ from = 0, ", key);
    if (format == 1) printf("amount = %lld", step->c[0]);
    else {
        printf("c = ");
        print_numbers(step->c, 4);
    }
    printf(" }]\n");
}

static void print_product(const Product *p) {
    printf("format = %d\nname = \"%s\"\nmonths = %d\nden = %lld\n", p->format, p->name, p->months, p->den);
    printf("start = \"%s\"\nstates = [", p->state[0]);
    for (int i = 0; i < p->states; i++) printf(i ? ", \"%s\"" : "\"%s\"", p->state[i]);
    printf("]\n");
    print_curve("interest", &p->interest);
    printf("lump = [\n");
    for (int i = 0; i < p->lumps; i++)
        printf("  { month = %d, state = \"%s\", amount = %lld },\n", p->lump[i].month, p->state[p->lump[i].state],
               p->lump[i].amount);
    printf("]\n");
    for (int i = 0; i < p->states; i++)
        if (is_paid(&p->sojourn[i])) {
            printf("\n[[sojourn]]\nstate = \"%s\"\n", p->state[i]);
            print_step("steps", &p->sojourn[i], p->format);
        }
    for (int e = 0; e < p->links; e++) {
        const Link *l = &p->link[e];
        printf("\n[[transition]]\nfrom = \"%s\"\nto = \"%s\"\n", p->state[l->from], p->state[l->to]);
        print_curve("rate", &l->rate);
        if (is_paid(&l->sum)) print_step("sum", &l->sum, p->format);
    }
    if (p->until > 0)
        printf("\n[premium]\npayers = [\"%s\"]\nuntil = %d\nevery = 1\n", p->state[0], p->until);
}

#endif
