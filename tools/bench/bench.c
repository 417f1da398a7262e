// The work of the program `bench` in plain C over flat arrays, after docs/TABLES.md, docs/COMPONENTS.md and docs/RULES.md:
// what a careful programmer would write with no proofs. It prints the same lines: what the calls answered to standard
// output, and the rates to standard error.
#include <stdbool.h>
#include <stdint.h>
#include <stdio.h>
#include <stdlib.h>
#include <string.h>
#include <time.h>

enum { STATES = 256, CHOICES = 16, BRANCHES = 8 };
enum { MOST_CHOICES = STATES * CHOICES, MOST_BRANCHES = MOST_CHOICES * BRANCHES };

#define SCALE 1048576
#define CAP 70368744177664

// ---- tables ----

typedef struct {
    uint32_t states, denominator;
    uint32_t first_choice[STATES], choice_count[STATES];
    int32_t reward[MOST_CHOICES];
    uint32_t first_branch[MOST_CHOICES], branch_count[MOST_CHOICES];
    uint32_t successor[MOST_BRANCHES], weight[MOST_BRANCHES];
} Table;

static bool choice_lawful(const Table *t, uint32_t c) {
    if (t->reward[c] < -1000000 || t->reward[c] > 1000000) return false;
    uint32_t count = t->branch_count[c], sum = 0;
    if (count < 1 || count > BRANCHES) return false;
    const uint32_t *to = t->successor + t->first_branch[c], *weight = t->weight + t->first_branch[c];
    for (uint32_t b = 0; b < count; b++) {
        if (to[b] >= t->states || weight[b] < 1 || weight[b] > t->denominator) return false;
        for (uint32_t a = 0; a < b; a++)
            if (to[a] == to[b]) return false;
        sum += weight[b];
    }
    return sum == t->denominator;
}

static bool lawful(const Table *t) {
    if (t->states < 1 || t->states > STATES) return false;
    if (t->denominator < 1 || t->denominator > 65536) return false;
    for (uint32_t s = 0; s < t->states; s++) {
        if (t->choice_count[s] < 1 || t->choice_count[s] > CHOICES) return false;
        for (uint32_t c = 0; c < t->choice_count[s]; c++)
            if (!choice_lawful(t, t->first_choice[s] + c)) return false;
    }
    return true;
}

// ---- the engine ----

typedef struct {
    Table t;
    bool inside[MOST_CHOICES];
    uint32_t link[MOST_BRANCHES]; // the node of the successor
    uint32_t nodes, components;
    uint32_t node[STATES], members[STATES], starts[STATES + 1], home[STATES];
    int32_t component[STATES]; // of a node; -1 of a lone state
    uint64_t reach[STATES][4];
    int64_t vector[STATES], halfway[STATES];
    uint32_t recorded[STATES], marks[STATES];
    int64_t lo[STATES], hi[STATES];
    int64_t x[STATES], y[STATES];
    int32_t exit_state[STATES]; // of a node; -1 to stay
    uint32_t exit_choice[STATES];
} Engine;

static bool reaches(const Engine *e, uint32_t from, uint32_t to) { return e->reach[from][to / 64] >> (to % 64) & 1; }

static void mark_reach(Engine *e) {
    const Table *t = &e->t;
    memset(e->reach, 0, sizeof e->reach);
    for (uint32_t s = 0; s < t->states; s++) {
        e->reach[s][s / 64] |= (uint64_t)1 << (s % 64);
        for (uint32_t c = t->first_choice[s]; c < t->first_choice[s] + t->choice_count[s]; c++) {
            if (!e->inside[c]) continue;
            for (uint32_t b = t->first_branch[c]; b < t->first_branch[c] + t->branch_count[c]; b++)
                e->reach[s][t->successor[b] / 64] |= (uint64_t)1 << (t->successor[b] % 64);
        }
    }
    for (uint32_t k = 0; k < t->states; k++)
        for (uint32_t s = 0; s < t->states; s++)
            if (reaches(e, s, k))
                for (int j = 0; j < 4; j++) e->reach[s][j] |= e->reach[k][j];
}

static bool drop_choices(Engine *e) {
    const Table *t = &e->t;
    bool dropped = false;
    for (uint32_t s = 0; s < t->states; s++)
        for (uint32_t c = t->first_choice[s]; c < t->first_choice[s] + t->choice_count[s]; c++) {
            if (!e->inside[c]) continue;
            for (uint32_t b = t->first_branch[c]; b < t->first_branch[c] + t->branch_count[c]; b++)
                if (!reaches(e, t->successor[b], s)) {
                    e->inside[c] = false;
                    dropped = true;
                    break;
                }
        }
    return dropped;
}

static bool has_inside(const Engine *e, uint32_t s) {
    for (uint32_t c = 0; c < e->t.choice_count[s]; c++)
        if (e->inside[e->t.first_choice[s] + c]) return true;
    return false;
}

static void number_nodes(Engine *e) {
    e->nodes = e->components = 0;
    for (uint32_t s = 0; s < e->t.states; s++) {
        uint32_t low = 0;
        while (!reaches(e, s, low)) low++;
        if (low < s) {
            e->node[s] = e->node[low];
            continue;
        }
        e->component[e->nodes] = -1;
        if (has_inside(e, s)) {
            e->home[e->components] = e->nodes;
            e->component[e->nodes] = (int32_t)e->components++;
        }
        e->node[s] = e->nodes++;
    }
}

static void list_members(Engine *e) {
    uint32_t at[STATES + 1] = {0};
    for (uint32_t s = 0; s < e->t.states; s++) at[e->node[s] + 1]++;
    for (uint32_t v = 0; v < e->nodes; v++) at[v + 1] += at[v];
    memcpy(e->starts, at, sizeof at);
    for (uint32_t s = 0; s < e->t.states; s++) e->members[at[e->node[s]]++] = s;
}

static void engine_close(Engine *e) {
    const Table *t = &e->t;
    int32_t least = t->reward[t->first_choice[0]], largest = least;
    for (uint32_t s = 0; s < t->states; s++)
        for (uint32_t c = 0; c < t->choice_count[s]; c++) {
            int32_t r = t->reward[t->first_choice[s] + c];
            if (r < least) least = r;
            if (r > largest) largest = r;
        }
    int64_t bottom = SCALE * (int64_t)least, top = SCALE * (int64_t)largest;
    for (uint32_t s = 0; s < t->states; s++) {
        uint32_t c = 0;
        while (c < t->choice_count[s] && !e->inside[t->first_choice[s] + c]) c++;
        e->recorded[s] = c < t->choice_count[s] ? c : 0;
        e->vector[s] = 0;
    }
    for (uint32_t i = 0; i < e->components; i++) e->lo[i] = bottom, e->hi[i] = top;
    for (uint32_t v = 0; v < e->nodes; v++) {
        e->x[v] = top;
        e->y[v] = bottom;
        e->exit_state[v] = e->component[v] >= 0 ? -1 : (int32_t)e->members[e->starts[v]];
        e->exit_choice[v] = 0;
    }
}

// Checks the table, copies it, takes it apart, and puts the book to its start.
static bool engine_load(Engine *e, const Table *source) {
    if (!lawful(source)) return false;
    Table *t = &e->t;
    uint32_t choices = 0, branches = 0;
    t->states = source->states;
    t->denominator = source->denominator;
    for (uint32_t s = 0; s < source->states; s++) {
        t->first_choice[s] = choices;
        t->choice_count[s] = source->choice_count[s];
        for (uint32_t k = 0; k < source->choice_count[s]; k++, choices++) {
            uint32_t c = source->first_choice[s] + k;
            t->reward[choices] = source->reward[c];
            t->first_branch[choices] = branches;
            t->branch_count[choices] = source->branch_count[c];
            for (uint32_t b = 0; b < source->branch_count[c]; b++, branches++) {
                t->successor[branches] = source->successor[source->first_branch[c] + b];
                t->weight[branches] = source->weight[source->first_branch[c] + b];
            }
        }
    }
    memset(e->inside, true, choices);
    do mark_reach(e);
    while (drop_choices(e));
    number_nodes(e);
    list_members(e);
    for (uint32_t b = 0; b < branches; b++) e->link[b] = e->node[t->successor[b]];
    engine_close(e);
    return true;
}

// ---- refine ----

static bool refine_step(Engine *e, uint32_t component) {
    const Table *t = &e->t;
    const int64_t w = t->denominator;
    const uint32_t v = e->home[component];
    int64_t most_up = INT64_MIN, least_down = INT64_MAX, least = INT64_MAX, largest = INT64_MIN;
    for (uint32_t i = e->starts[v]; i < e->starts[v + 1]; i++) {
        uint32_t s = e->members[i], mark = 0, first = t->first_choice[s];
        int64_t best_up = INT64_MIN, best_down = INT64_MIN;
        for (uint32_t c = 0; c < t->choice_count[s]; c++) {
            if (!e->inside[first + c]) continue;
            const uint32_t from = t->first_branch[first + c], count = t->branch_count[first + c];
            int64_t sum = 0;
            for (uint32_t b = 0; b < count; b++) sum += (int64_t)t->weight[from + b] * e->vector[t->successor[from + b]];
            int64_t whole = sum / w, rest = sum % w, earned = SCALE * (int64_t)t->reward[first + c];
            int64_t up = earned + whole + (rest > 0), down = earned + whole - (rest < 0);
            if (up > best_up) best_up = up;
            if (down > best_down) best_down = down, mark = c;
        }
        int64_t here = e->vector[s], up = best_up - here, down = best_down - here;
        int64_t half = here + (down >> 1);
        e->halfway[s] = half;
        e->marks[s] = mark;
        if (up > most_up) most_up = up;
        if (down < least_down) least_down = down;
        if (half < least) least = half;
        if (half > largest) largest = half;
    }
    if (most_up < e->hi[component]) e->hi[component] = most_up;
    if (least_down > e->lo[component]) {
        e->lo[component] = least_down;
        for (uint32_t i = e->starts[v]; i < e->starts[v + 1]; i++) e->recorded[e->members[i]] = e->marks[e->members[i]];
    }
    if (largest - least > CAP) return true;
    for (uint32_t i = e->starts[v]; i < e->starts[v + 1]; i++) e->vector[e->members[i]] = e->halfway[e->members[i]] - least;
    return false;
}

static uint64_t engine_refine(Engine *e, uint32_t component, uint64_t steps, uint64_t width) {
    for (uint64_t made = 0; made < steps; made++) {
        if (e->hi[component] - e->lo[component] <= (int64_t)width) return made;
        if (refine_step(e, component)) return made + 1;
    }
    return steps;
}

// ---- sweep ----

static bool sweep_once(Engine *e) {
    const Table *t = &e->t;
    const int64_t w = t->denominator;
    bool still = true;
    for (uint32_t v = 0; v < e->nodes; v++) {
        int64_t above = INT64_MIN, below = INT64_MIN;
        int32_t exit_state = -1;
        uint32_t exit_choice = 0;
        if (e->component[v] >= 0) above = e->hi[e->component[v]], below = e->lo[e->component[v]];
        for (uint32_t i = e->starts[v]; i < e->starts[v + 1]; i++) {
            uint32_t s = e->members[i], first = t->first_choice[s];
            for (uint32_t c = 0; c < t->choice_count[s]; c++) {
                if (e->inside[first + c]) continue;
                const uint32_t from = t->first_branch[first + c], count = t->branch_count[first + c];
                int64_t sum_x = 0, sum_y = 0;
                for (uint32_t b = 0; b < count; b++) {
                    sum_x += (int64_t)t->weight[from + b] * e->x[e->link[from + b]];
                    sum_y += (int64_t)t->weight[from + b] * e->y[e->link[from + b]];
                }
                int64_t up = sum_x / w + (sum_x % w > 0), down = sum_y / w - (sum_y % w < 0);
                if (up > above) above = up;
                if (down > below) below = down, exit_state = (int32_t)s, exit_choice = c;
            }
        }
        if (above != e->x[v] || below != e->y[v]) still = false;
        if (below > e->y[v]) e->exit_state[v] = exit_state, e->exit_choice[v] = exit_choice;
        e->x[v] = above;
        e->y[v] = below;
    }
    return still;
}

static uint64_t engine_sweep(Engine *e, uint64_t count) {
    for (uint64_t made = 0; made < count; made++)
        if (sweep_once(e)) return made + 1;
    return count;
}

// ---- quote and plan ----

__attribute__((noinline)) static bool engine_quote(const Engine *e, uint64_t state, int64_t *lower, int64_t *upper) {
    if (state >= e->t.states) return false;
    *lower = e->y[e->node[state]];
    *upper = e->x[e->node[state]];
    return true;
}

// Whether an inside choice has a branch to a state of that distance.
static bool enters(const Engine *e, const int *distance, uint32_t c, int nearer) {
    if (!e->inside[c]) return false;
    for (uint32_t b = e->t.first_branch[c]; b < e->t.first_branch[c] + e->t.branch_count[c]; b++)
        if (distance[e->t.successor[b]] == nearer) return true;
    return false;
}

static void plan_node(const Engine *e, uint32_t v, uint32_t *plan) {
    int distance[STATES];
    const uint32_t from = e->starts[v], to = e->starts[v + 1];
    for (uint32_t s = 0; s < e->t.states; s++) distance[s] = -1;
    for (uint32_t i = from; i < to; i++) plan[e->members[i]] = e->recorded[e->members[i]];
    if (e->exit_state[v] < 0) return;
    plan[e->exit_state[v]] = e->exit_choice[v];
    distance[e->exit_state[v]] = 0;
    for (int d = 0; d < (int)(to - from); d++)
        for (uint32_t i = from; i < to; i++) {
            uint32_t s = e->members[i];
            for (uint32_t c = 0; distance[s] < 0 && c < e->t.choice_count[s]; c++)
                if (enters(e, distance, e->t.first_choice[s] + c, d)) distance[s] = d + 1, plan[s] = c;
        }
}

// ---- the tables that are measured ----

static const uint32_t WEIGHTS[BRANCHES] = {1, 2047, 4096, 6144, 8192, 12288, 16384, 16384};

static int32_t reward_of(uint32_t choice) { return (int32_t)(7919 * choice % 20001) - 10000; }

static void add_state(Table *t, uint32_t s, uint32_t choices) {
    t->choice_count[s] = choices;
    t->first_choice[s] = s == 0 ? 0 : t->first_choice[s - 1] + t->choice_count[s - 1];
}

// A choice with room for eight branches.
static void add_choice(Table *t, uint32_t c, int32_t reward, uint32_t count) {
    t->reward[c] = reward;
    t->first_branch[c] = BRANCHES * c;
    t->branch_count[c] = count;
}

static void set_branch(Table *t, uint32_t c, uint32_t b, uint32_t successor, uint32_t weight) {
    t->successor[BRANCHES * c + b] = successor;
    t->weight[BRANCHES * c + b] = weight;
}

static void largest(Table *t) {
    t->states = STATES, t->denominator = 65536;
    for (uint32_t s = 0; s < STATES; s++) add_state(t, s, CHOICES);
    for (uint32_t c = 0; c < MOST_CHOICES; c++) {
        add_choice(t, c, reward_of(c), BRANCHES);
        for (uint32_t b = 0; b < BRANCHES; b++) set_branch(t, c, b, (37 * c + 29 * b) % STATES, WEIGHTS[b]);
    }
}

static void exits(Table *t) {
    t->states = STATES, t->denominator = 65536;
    for (uint32_t s = 0; s < STATES; s++) add_state(t, s, CHOICES);
    for (uint32_t c = 0; c < MOST_CHOICES; c++) {
        add_choice(t, c, reward_of(c), BRANCHES);
        uint32_t s = c / CHOICES;
        for (uint32_t b = 0; b < BRANCHES; b++) {
            uint32_t to = s + 1 + b * (2 * (c % CHOICES) + 1);
            set_branch(t, c, b, s < 240 ? to % STATES : 240 + to % 16, WEIGHTS[b]);
        }
    }
}

static void chain(Table *t) {
    t->states = STATES, t->denominator = 65536;
    for (uint32_t s = 0; s < STATES; s++) add_state(t, s, CHOICES);
    for (uint32_t c = 0; c < MOST_CHOICES; c++) {
        uint32_t s = c / CHOICES;
        bool last = s == STATES - 1;
        add_choice(t, c, reward_of(c), last ? 1 : 2);
        set_branch(t, c, 0, last ? s : 0, last ? 65536 : 32768);
        set_branch(t, c, 1, s + 1, 32768);
    }
}

static void band(Table *t) {
    const uint32_t half = 127, end = 2 * half;
    t->states = 2 * half + 1, t->denominator = 4;
    for (uint32_t s = 0; s < t->states; s++) {
        add_state(t, s, 2);
        uint32_t hold = 2 * s, move = 2 * s + 1, b = 0;
        add_choice(t, hold, -7000 * abs((int32_t)s - (int32_t)half), s == 0 || s == end ? 2 : 3);
        if (s > 0) set_branch(t, hold, b++, s - 1, 1);
        set_branch(t, hold, b++, s, s == 0 || s == end ? 3 : 2);
        if (s < end) set_branch(t, hold, b++, s + 1, 1);
        add_choice(t, move, -1000000, 1);
        set_branch(t, move, 0, half, 4);
    }
}

// ---- timing ----

typedef struct {
    uint64_t done, nanos;
} Work;

static uint64_t now(void) {
    struct timespec at;
    clock_gettime(CLOCK_MONOTONIC, &at);
    return 1000000000 * (uint64_t)at.tv_sec + (uint64_t)at.tv_nsec;
}

static int64_t mixed(int64_t sum, int64_t number) { return (int64_t)(31 * (uint64_t)sum + (uint64_t)number); }

static void print_work(const char *name, const char *what, Work work) {
    printf("%s %s %llu\n", name, what, (unsigned long long)work.done);
    double rate = 1e9 * (double)work.done / (double)(work.nanos > 0 ? work.nanos : 1);
    fprintf(stderr, "%s %s %.0f per second\n", name, what, rate);
}

static Work time_loads(Engine *e, const Table *t, uint32_t rounds) {
    Work work = {0, 0};
    for (uint32_t round = 0; round < rounds; round++) {
        uint64_t start = now();
        work.done += engine_load(e, t);
        work.nanos += now() - start;
    }
    return work;
}

static Work time_refines(Engine *e, uint32_t rounds, int64_t *sum) {
    Work work = {0, 0};
    for (uint32_t round = 0; round < rounds; round++) {
        engine_close(e);
        uint64_t start = now();
        work.done += engine_refine(e, 0, 1000, 0);
        work.nanos += now() - start;
        *sum = mixed(mixed(*sum, e->lo[0]), e->hi[0]);
    }
    return work;
}

static Work time_sweeps(Engine *e, uint32_t rounds) {
    Work work = {0, 0};
    for (uint32_t round = 0; round < rounds; round++) {
        engine_close(e);
        engine_refine(e, 0, 100, 0);
        uint64_t start = now();
        work.done += engine_sweep(e, 1000);
        work.nanos += now() - start;
    }
    return work;
}

static Work time_quotes(const Engine *e, uint32_t rounds, int64_t *sum) {
    Work work = {0, 0};
    for (uint32_t round = 0; round < rounds; round++) {
        uint64_t start = now();
        for (uint64_t s = 0; s < e->t.states; s++) {
            int64_t lower, upper;
            if (engine_quote(e, s, &lower, &upper)) *sum = mixed(mixed(*sum, lower), upper);
        }
        work.done += e->t.states;
        work.nanos += now() - start;
    }
    return work;
}

static int64_t plan_sum(const Engine *e) {
    uint32_t plan[STATES] = {0};
    int64_t sum = 0;
    for (uint32_t v = 0; v < e->nodes; v++) plan_node(e, v, plan);
    for (uint32_t s = 0; s < STATES; s++) sum = mixed(sum, plan[s]);
    return sum;
}

static void measure_loads(Engine *e, const char *name, const Table *t, uint32_t rounds) {
    if (!engine_load(e, t)) {
        printf("%s refused\n", name);
        return;
    }
    printf("%s states %u components %u\n", name, e->t.states, e->components);
    print_work(name, "loads", time_loads(e, t, rounds));
}

static void measure(Engine *e, const char *name, const Table *t, uint32_t rounds) {
    int64_t bounds = 0, values = 0;
    measure_loads(e, name, t, rounds);
    print_work(name, "refine steps", time_refines(e, rounds, &bounds));
    print_work(name, "sweeps", time_sweeps(e, rounds));
    print_work(name, "quotes", time_quotes(e, 1000, &values));
    printf("%s checksums %lld %lld %lld\n", name, (long long)bounds, (long long)values, (long long)plan_sum(e));
}

int main(void) {
    Table *t = calloc(1, sizeof *t);
    Engine *e = calloc(1, sizeof *e);
    if (!t || !e) return 1;
    largest(t), measure(e, "largest", t, 20);
    exits(t), measure(e, "exits", t, 20);
    band(t), measure(e, "band", t, 20);
    chain(t), measure_loads(e, "chain", t, 20);
    free(e), free(t);
    return 0;
}
