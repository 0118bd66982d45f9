// The work of the program bench_monitor in plain C: the same watchers, the same search, the same output.
//
// Each argument is a case: a kind of work, a number of states and how often, as up,1000,5. For each case what came of
// it is printed, and the shortest time that it took on standard error, in nanoseconds.
#include <stdbool.h>
#include <stdint.h>
#include <stdio.h>
#include <stdlib.h>
#include <string.h>
#include <time.h>

enum { MOST_STATES = 16384, MARK_SETS = 256, MOST_CLOSED = 1000000 };
enum { EVENTS = 5, DIGITS = 3, LETTERS = 243, LAST_LETTER = 242, HEAD = 3 };

// The watchers.

enum shape { UP, DOWN, ROUND, BACK, MIXED, LATE };

// A watcher that is computed by a formula.
struct computed {
    enum shape shape;
    uint16_t states;
};

// A drawn table: states, events and marks, then the marks of each state, then a row of next states for each.
struct table {
    uint16_t *words;
    uint16_t states;
};

struct pair {
    struct table first, second;
};

enum tag { COMPUTED, TABLE, PAIR };

struct watcher {
    enum tag tag;
    union {
        struct computed computed;
        struct table table;
        struct pair pair;
    };
};

static uint16_t mixed(uint16_t state, uint16_t letter, uint16_t count) {
    uint32_t number = (uint32_t)state * 7 + (uint32_t)letter * 13 + 1;
    return (uint16_t)(number % count);
}

static uint16_t risen(uint16_t state, uint16_t last) {
    return state < last ? state + 1 : state;
}

static uint16_t sunk(uint16_t state) {
    return state > 0 ? state - 1 : 0;
}

static inline uint16_t computed_next(const struct computed *w, uint16_t state, uint16_t letter) {
    if (state >= w->states || letter >= LETTERS)
        return 0;
    uint16_t last = w->states - 1;
    switch (w->shape) {
    case UP:
        return risen(state, last);
    case DOWN:
        return sunk(state);
    case ROUND:
        return state == last ? 0 : state + 1;
    case BACK:
        return letter == LAST_LETTER && state < last ? sunk(state) : risen(state, last);
    case MIXED:
        return mixed(state, letter, w->states);
    case LATE:
        if (state == last || (letter == LAST_LETTER && state + 2 >= last))
            return risen(state, last);
        return mixed(state, letter, last - 1);
    }
    return 0;
}

static inline uint8_t computed_shown(const struct computed *w, uint16_t state) {
    if (state >= w->states)
        return 0;
    switch (w->shape) {
    case UP:
    case BACK:
    case LATE:
        return state == w->states - 1;
    case DOWN:
        return state == 0;
    default:
        return 0;
    }
}

static inline uint16_t table_next(const struct table *w, uint16_t state, uint16_t letter) {
    if (state >= w->states || letter >= LETTERS)
        return 0;
    return w->words[HEAD + w->states + (size_t)state * LETTERS + letter];
}

static inline uint8_t table_shown(const struct table *w, uint16_t state) {
    if (state >= w->states)
        return 0;
    return (uint8_t)w->words[HEAD + state];
}

static inline uint16_t pair_states(const struct pair *w) {
    return w->first.states * w->second.states;
}

static inline uint16_t pair_next(const struct pair *w, uint16_t state, uint16_t letter) {
    if (state >= pair_states(w) || letter >= LETTERS)
        return 0;
    uint16_t seconds = w->second.states;
    uint16_t first = table_next(&w->first, state / seconds, letter);
    return first * seconds + table_next(&w->second, state % seconds, letter);
}

static inline uint8_t pair_shown(const struct pair *w, uint16_t state) {
    if (state >= pair_states(w))
        return 0;
    uint16_t seconds = w->second.states;
    return table_shown(&w->first, state / seconds) + (table_shown(&w->second, state % seconds) << w->first.words[2]);
}

static inline uint16_t states_of(const struct watcher *w) {
    switch (w->tag) {
    case COMPUTED:
        return w->computed.states;
    case TABLE:
        return w->table.states;
    case PAIR:
        return pair_states(&w->pair);
    }
    return 0;
}

static inline uint16_t next_of(const struct watcher *w, uint16_t state, uint16_t letter) {
    switch (w->tag) {
    case COMPUTED:
        return computed_next(&w->computed, state, letter);
    case TABLE:
        return table_next(&w->table, state, letter);
    case PAIR:
        return pair_next(&w->pair, state, letter);
    }
    return 0;
}

static inline uint8_t shown_of(const struct watcher *w, uint16_t state) {
    switch (w->tag) {
    case COMPUTED:
        return computed_shown(&w->computed, state);
    case TABLE:
        return table_shown(&w->table, state);
    case PAIR:
        return pair_shown(&w->pair, state);
    }
    return 0;
}

// Making them.

static void *room(size_t size) {
    void *memory = malloc(size);
    if (!memory) {
        fputs("no memory\n", stderr);
        exit(1);
    }
    return memory;
}

static struct computed computed_of(enum shape shape, uint16_t states) {
    if (states < 3 || states > MOST_STATES) {
        fputs("no watcher has so many states\n", stderr);
        exit(1);
    }
    return (struct computed){shape, states};
}

static struct table drawn_of(enum shape shape, uint16_t states) {
    struct computed w = computed_of(shape, states);
    uint16_t *words = room((HEAD + (size_t)states * (1 + LETTERS)) * sizeof *words);
    uint16_t *end = words;
    *end++ = states;
    *end++ = EVENTS;
    *end++ = 1;
    for (uint16_t state = 0; state < states; state++)
        *end++ = computed_shown(&w, state);
    for (uint16_t state = 0; state < states; state++)
        for (uint16_t letter = 0; letter < LETTERS; letter++)
            *end++ = computed_next(&w, state, letter);
    return (struct table){words, states};
}

static struct pair pair_of(uint16_t states) {
    return (struct pair){drawn_of(LATE, states), drawn_of(MIXED, states)};
}

static void release(struct watcher *w) {
    if (w->tag == TABLE) {
        free(w->table.words);
    } else if (w->tag == PAIR) {
        free(w->pair.first.words);
        free(w->pair.second.words);
    }
}

// The search along the letters: states that lead to each other, on a path that is cut into groups.

struct outlook {
    bool keepable[MOST_STATES], breakable[MOST_STATES];
};

struct search {
    bool keepable[MOST_STATES], breakable[MOST_STATES], seen[MOST_STATES];
    // The next letter of a state, the path, the place of a state on it, what `here` was when a place was taken, and
    // the first place of each group.
    uint16_t cursor[MOST_STATES], path[MOST_STATES], place[MOST_STATES], resume[MOST_STATES], bounds[MOST_STATES];
    uint16_t depth, groups, here;
};

static void push(struct search *s, uint16_t state) {
    uint16_t end = s->depth;
    s->seen[state] = true;
    s->path[end] = state;
    s->place[state] = end;
    s->resume[end] = s->here;
    s->bounds[s->groups] = end;
    s->groups++;
    s->depth = end + 1;
    s->here = end + 1;
}

static bool stands(const struct search *s, uint16_t state) {
    uint16_t place = s->place[state];
    return place < s->depth && s->path[place] == state;
}

static bool any(const bool *table, const uint16_t *path, uint16_t from, uint16_t to) {
    for (uint16_t place = from; place < to; place++)
        if (table[path[place]])
            return true;
    return false;
}

// Where one of the states at those places is in the table, puts all of them in, and the state before `resume`.
static void share(bool *table, const uint16_t *path, uint16_t from, uint16_t to, uint16_t resume) {
    if (!any(table, path, from, to))
        return;
    for (uint16_t place = from; place < to; place++)
        table[path[place]] = true;
    if (resume > 0)
        table[path[resume - 1]] = true;
}

static void leave(struct search *s, uint16_t first) {
    uint16_t resume = s->resume[first];
    share(s->keepable, s->path, first, s->depth, resume);
    share(s->breakable, s->path, first, s->depth, resume);
    s->depth = first;
    s->groups--;
    s->here = resume;
}

static inline void look(struct search *s, const struct watcher *w, const bool *good) {
    uint16_t state = s->path[s->here - 1];
    uint16_t letter = s->cursor[state];
    uint16_t next = next_of(w, state, letter);
    s->cursor[state] = letter + 1;
    if (!s->seen[next]) {
        push(s, next);
    } else if (stands(s, next)) {
        uint16_t back = s->place[next];
        if (good[shown_of(w, state)])
            s->keepable[state] = true;
        else
            s->breakable[state] = true;
        while (s->bounds[s->groups - 1] > back)
            s->groups--;
    } else {
        s->keepable[state] |= s->keepable[next];
        s->breakable[state] |= s->breakable[next];
    }
}

static inline void step(struct search *s, const struct watcher *w, const bool *good) {
    uint16_t place = s->here - 1;
    uint16_t state = s->path[place];
    if (s->cursor[state] < LETTERS)
        look(s, w, good);
    else if (s->bounds[s->groups - 1] == place)
        leave(s, place);
    else
        s->here = s->resume[place];
}

static inline __attribute__((always_inline)) void look_all(const struct watcher *w, const bool *good, struct outlook *out) {
    struct search s;
    memset(&s, 0, sizeof s);
    uint16_t states = states_of(w);
    for (uint16_t state = 0; state < states; state++) {
        if (s.seen[state])
            continue;
        push(&s, state);
        while (s.here > 0)
            step(&s, w, good);
    }
    memcpy(out->keepable, s.keepable, sizeof s.keepable);
    memcpy(out->breakable, s.breakable, sizeof s.breakable);
}

// The expression is a term alone, which holds where its mark is not shown.

static void truths(int term, bool *good) {
    for (int set = 0; set < MARK_SETS; set++)
        good[set] = !((set >> (term - 1)) & 1);
}

// The monitor.

struct monitor {
    struct watcher watcher;
    int term;
    struct outlook outlook;
    uint16_t state;
    uint32_t closed;
    uint8_t digits[EVENTS];
};

// A function for each kind of watcher, as a generic function has.
static __attribute__((noinline)) void outlook_computed(const struct watcher *w, const bool *good, struct outlook *out) {
    if (w->tag == COMPUTED)
        look_all(w, good, out);
}

static __attribute__((noinline)) void outlook_table(const struct watcher *w, const bool *good, struct outlook *out) {
    if (w->tag == TABLE)
        look_all(w, good, out);
}

static __attribute__((noinline)) void outlook_pair(const struct watcher *w, const bool *good, struct outlook *out) {
    if (w->tag == PAIR)
        look_all(w, good, out);
}

static void outlook_of(const struct watcher *w, const bool *good, struct outlook *out) {
    switch (w->tag) {
    case COMPUTED:
        outlook_computed(w, good, out);
        break;
    case TABLE:
        outlook_table(w, good, out);
        break;
    case PAIR:
        outlook_pair(w, good, out);
        break;
    }
}

static void open_monitor(struct monitor *m, struct watcher watcher, int term) {
    bool good[MARK_SETS];
    truths(term, good);
    m->watcher = watcher;
    m->term = term;
    outlook_of(&m->watcher, good, &m->outlook);
    m->state = 0;
    m->closed = 0;
    memset(m->digits, 0, sizeof m->digits);
}

static bool note(struct monitor *m, uint8_t event, uint8_t kind) {
    if (event >= EVENTS || (kind != 1 && kind != 2))
        return false;
    if (m->digits[event] != 0)
        return false;
    m->digits[event] = kind;
    return true;
}

static bool close_step(struct monitor *m) {
    if (m->closed >= MOST_CLOSED)
        return false;
    uint16_t letter = 0;
    for (int event = EVENTS - 1; event >= 0; event--)
        letter = letter * DIGITS + m->digits[event];
    m->state = next_of(&m->watcher, m->state, letter);
    m->closed++;
    memset(m->digits, 0, sizeof m->digits);
    return true;
}

enum verdict { OPEN, SATISFIED, VIOLATED };

static enum verdict verdict(const struct monitor *m) {
    if (!m->outlook.keepable[m->state])
        return VIOLATED;
    return m->outlook.breakable[m->state] ? OPEN : SATISFIED;
}

// The cases.

// Over two tables of 100 states the word changes late in a million steps.
static const uint32_t SEED = 12;

static uint64_t now(void) {
    struct timespec t;
    clock_gettime(CLOCK_MONOTONIC, &t);
    return (uint64_t)t.tv_sec * 1000000000u + (uint64_t)t.tv_nsec;
}

static unsigned count(const bool *table) {
    unsigned count = 0;
    for (int state = 0; state < MOST_STATES; state++)
        count += table[state];
    return count;
}

static struct watcher watcher_of(const char *kind, uint16_t states) {
    static const char *const names[] = {"up", "down", "round", "back", "mixed", "late"};
    struct watcher w;
    for (int shape = UP; shape <= LATE; shape++)
        if (strcmp(kind, names[shape]) == 0) {
            w.tag = COMPUTED;
            w.computed = computed_of((enum shape)shape, states);
            return w;
        }
    if (strcmp(kind, "drawn-up") == 0 || strcmp(kind, "drawn-down") == 0) {
        w.tag = TABLE;
        w.table = drawn_of(strcmp(kind, "drawn-up") == 0 ? UP : DOWN, states);
        return w;
    }
    w.tag = PAIR;
    w.pair = pair_of(states);
    return w;
}

static void open_all(const char *kind, uint16_t states, uint32_t times) {
    static const char *const names[] = {"open", "satisfied", "violated"};
    uint64_t least = UINT64_MAX;
    struct outlook chart;
    enum verdict word;
    do {
        struct watcher w = watcher_of(kind, states);
        bool good[MARK_SETS];
        truths(1, good);
        outlook_of(&w, good, &chart);
        struct monitor m;
        uint64_t begun = now();
        open_monitor(&m, w, 1);
        word = verdict(&m);
        uint64_t took = now() - begun;
        least = took < least ? took : least;
        release(&w);
    } while (times-- > 1);
    printf("keepable %u, breakable %u, %s\n", count(chart.keepable), count(chart.breakable), names[word]);
    fprintf(stderr, "%llu\n", (unsigned long long)least);
}

static bool close_letter(struct monitor *m, uint32_t letter) {
    for (uint8_t event = 0; event < EVENTS; event++) {
        uint8_t kind = letter % DIGITS;
        letter /= DIGITS;
        if (kind != 0 && !note(m, event, kind))
            return false;
    }
    return close_step(m);
}

static void close_all(const char *kind, uint16_t states, uint32_t times) {
    struct monitor m;
    open_monitor(&m, watcher_of(kind, states), 1);
    uint32_t open = 0, seed = SEED;
    uint64_t begun = now();
    for (uint32_t i = 0; i < times; i++) {
        seed = seed * 1103515245u + 12345u;
        if (!close_letter(&m, (seed >> 16) % LETTERS)) {
            fputs("a note or a closing was refused\n", stderr);
            exit(1);
        }
        open += verdict(&m) == OPEN;
    }
    uint64_t took = now() - begun;
    release(&m.watcher);
    printf("open after %u steps\n", open);
    fprintf(stderr, "%llu\n", (unsigned long long)took);
}

int main(int argc, char **argv) {
    for (int i = 1; i < argc; i++) {
        char kind[16];
        unsigned states, times;
        if (sscanf(argv[i], "%15[^,],%u,%u", kind, &states, &times) != 3 || states > UINT16_MAX) {
            fputs("a case is a kind, a number of states and how often, as up,1000,5\n", stderr);
            return 1;
        }
        if (strcmp(kind, "close") == 0)
            close_all(kind, (uint16_t)states, times);
        else
            open_all(kind, (uint16_t)states, times);
    }
    return 0;
}
