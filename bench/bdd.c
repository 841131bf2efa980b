/* The work of crates/bdd_bench, done by BuDDy. Usage: bdd identity|taint|calls ROUNDS CACHE [sets|products]
 * CACHE is how many entries each of BuDDy's caches has. With sets, all variables that two relations
 * share are forgotten at once, and with products in one pass with the conjunction; else one by one. */
#include <bdd.h>
#include <stdint.h>
#include <stdio.h>
#include <stdlib.h>
#include <string.h>
#include <time.h>

enum { SLOTS = 64, TAINTED = 30, JOINED = 15, FORGOTTEN = 10, VARIABLES = 4 * SLOTS };

static uint64_t operations;
static int at_once;
static int in_product;

static BDD join(BDD f, BDD g, int op) {
    operations++;
    return bdd_addref(bdd_apply(f, g, op));
}

static BDD forget(BDD f, const int *vars, int count) {
    for (int i = 0; i < count; i++) {
        operations++;
        f = bdd_addref(bdd_exist(f, bdd_ithvar(vars[i])));
    }
    return f;
}

static BDD kept(int one, int other) {
    BDD made = bddtrue;
    for (int slot = SLOTS - 1; slot >= 0; slot--) {
        BDD both = join(bdd_ithvar(4 * slot + one), bdd_ithvar(4 * slot + other), bddop_and);
        BDD neither = join(bdd_nithvar(4 * slot + one), bdd_nithvar(4 * slot + other), bddop_and);
        made = join(join(both, neither, bddop_or), made, bddop_and);
    }
    return made;
}

/* The relation that is composed of two, where the copy that both speak of is forgotten. */
static BDD compose(BDD f, BDD g, int copy) {
    int vars[SLOTS];
    for (int slot = 0; slot < SLOTS; slot++) vars[slot] = 4 * slot + copy;
    if (!at_once && !in_product) return forget(join(f, g, bddop_and), vars, SLOTS);
    BDD set = bdd_addref(bdd_makeset(vars, SLOTS));
    operations++;
    return bdd_addref(in_product ? bdd_appex(f, g, bddop_and, set) : bdd_exist(join(f, g, bddop_and), set));
}

static int identity(int rounds) {
    BDD start = kept(0, 1), next = kept(1, 2), composed = start;
    for (int round = 0; round < rounds; round++) {
        composed = compose(compose(composed, next, 1), next, 2);
    }
    return composed == start;
}

static uint64_t next_random(uint64_t random) { return random * 0x5851f42d4c957f2dULL + 0x14057b7ef767814fULL; }

static int slot_of(uint64_t random) { return (int)((random >> 33) % TAINTED); }

static int value(BDD f, uint64_t point) {
    while (f != bddtrue && f != bddfalse) {
        int var = bdd_var(f);
        f = point >> (var % 4 * TAINTED + var / 4) % 64 & 1 ? bdd_high(f) : bdd_low(f);
    }
    return f == bddtrue;
}

/* What all slots are after a call at most. They are of this copy before the call, and of the next after it. */
static BDD relation(int copy, uint64_t *random) {
    BDD made = bddtrue;
    for (int slot = TAINTED - 1; slot >= 0; slot--) {
        BDD clause = join(bdd_nithvar(4 * slot + copy + 1), bdd_ithvar(4 * slot + copy), bddop_or);
        for (int more = 0; more < (slot < JOINED ? 2 : 0); more++) {
            *random = next_random(*random);
            clause = join(clause, bdd_ithvar(4 * slot_of(*random) + copy), bddop_or);
        }
        made = join(clause, made, bddop_and);
    }
    return made;
}

static int taint(int rounds) {
    uint64_t random = 1;
    int trues = 0;
    for (int round = 0; round < rounds; round++) {
        BDD made = relation(0, &random);
        int vars[FORGOTTEN];
        for (int i = 0; i < FORGOTTEN; i++) {
            random = next_random(random);
            vars[i] = 4 * slot_of(random);
        }
        made = forget(made, vars, FORGOTTEN);
        random = next_random(random);
        trues += value(made, random);
    }
    return trues;
}

static int calls(int rounds) {
    uint64_t random = 1;
    int trues = 0;
    for (int round = 0; round < rounds; round++) {
        BDD first = relation(0, &random), second = relation(1, &random), made = compose(first, second, 1);
        random = next_random(random);
        trues += value(made, random);
    }
    return trues;
}

int main(int words, char **word) {
    if (words < 4) return 1;
    int rounds = atoi(word[2]);
    at_once = words > 4 && !strcmp(word[4], "sets");
    in_product = words > 4 && !strcmp(word[4], "products");
    bdd_init(1 << 24, atoi(word[3]));
    bdd_setmaxincrease(0);
    bdd_setvarnum(VARIABLES);
    int before = bdd_getnodenum();
    struct timespec start, end;
    clock_gettime(CLOCK_MONOTONIC, &start);
    int answer = !strcmp(word[1], "taint") ? taint(rounds) : !strcmp(word[1], "calls") ? calls(rounds) : identity(rounds);
    clock_gettime(CLOCK_MONOTONIC, &end);
    long long took = (end.tv_sec - start.tv_sec) * 1000000000LL + end.tv_nsec - start.tv_nsec;
    printf("answer %d operations %llu nodes %d in %lld ns\n", answer, (unsigned long long)operations, bdd_getnodenum() - before, took);
    return 0;
}
