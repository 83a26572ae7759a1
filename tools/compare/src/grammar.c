/* The grammar as an automaton: a node for each place between two bytes of the rules, stepped byte by byte as the set of all nodes at which
   the bytes so far may stand. A set that was met before is kept, with the steps that were taken from it. */
#include "grammar.h"

#include <ctype.h>
#include <stdio.h>
#include <stdlib.h>
#include <string.h>

enum { NOTHING = -1, UNKNOWN = -2, BUCKETS = 1 << 18, SET_MOST = 4096 };

typedef struct {
    int byte, to, next; /* NOTHING: a step without a byte */
} Edge;

typedef struct {
    int size, first, chain, accepts; /* nodes of a set: `first` on in `members` */
    int *steps;
} Set;

typedef struct {
    int from, to;
} Part;

struct Grammar {
    const char *rules;
    int *edges_of, nodes, node_room;
    Edge *edges;
    int edge_count, edge_room;
    Set *sets;
    int set_count, set_room;
    int *members, member_count, member_room;
    int *buckets, start, end, classes, class_of[256];
    unsigned *mark, turn;
};

static void stop(const char *why, const char *where) {
    fprintf(stderr, "grammar: %s at: %.40s\n", why, where);
    exit(2);
}

static void *grown(void *p, int need, int *room, size_t each) {
    if (need <= *room) return p;
    *room = need < 1024 ? 2048 : 2 * need;
    p = realloc(p, (size_t)*room * each);
    if (!p) stop("no memory", "");
    return p;
}

/* ---- from the rules to nodes */

static int node(Grammar *g) {
    g->edges_of = grown(g->edges_of, g->nodes + 1, &g->node_room, sizeof *g->edges_of);
    g->edges_of[g->nodes] = NOTHING;
    return g->nodes++;
}

static void edge(Grammar *g, int from, int byte, int to) {
    Edge e = {byte, to, g->edges_of[from]};
    g->edges = grown(g->edges, g->edge_count + 1, &g->edge_room, sizeof e);
    g->edges[g->edge_count] = e;
    g->edges_of[from] = g->edge_count++;
}

static const char *spaces(const char *p) {
    while (*p == ' ') p++;
    return p;
}

static const char *rule(Grammar *g, const char *name, size_t length) {
    const char *p = g->rules;
    while (*p) {
        if (strncmp(p, name, length) == 0 && *(p + length) == ' ') {
            p = spaces(p + length);
            if (*p == '=') return p + 1;
        }
        p = strchr(p, '\n');
        if (!p) break;
        p++;
    }
    stop("no such rule", name);
    return NULL;
}

static const char *choice(Grammar *g, const char *p, Part *part);

/* Each number's digits, one by one, over one tree. */
static Part numerals(Grammar *g, unsigned low, unsigned high) {
    Part part = {node(g), node(g)};
    unsigned n;
    for (n = low; n <= high; n++) {
        char digits[16], *d;
        int at = part.from, e;
        sprintf(digits, "%u", n);
        for (d = digits; *d; d++) {
            for (e = g->edges_of[at]; e != NOTHING && g->edges[e].byte != *d; e = g->edges[e].next) {}
            if (e == NOTHING) {
                int fresh = node(g);
                edge(g, at, *d, fresh);
                at = fresh;
            } else {
                at = g->edges[e].to;
            }
        }
        edge(g, at, NOTHING, part.to);
    }
    return part;
}

static const char *repeated(Grammar *g, const char *p, Part *part) {
    const char *inside = p, *behind;
    Part once;
    long most, i;
    char *end;
    part->from = part->to = node(g);
    behind = choice(g, inside, &once);
    if (*behind != '}') stop("no }", p);
    if (!isdigit((unsigned char)behind[1])) {
        edge(g, part->from, NOTHING, once.from);
        edge(g, once.to, NOTHING, part->from);
        return behind + 1;
    }
    most = strtol(behind + 1, &end, 10);
    part->to = node(g);
    edge(g, part->from, NOTHING, part->to);
    for (i = 0; i < most; i++) {
        Part copy = once;
        if (i) choice(g, inside, &copy);
        edge(g, i ? once.to : part->from, NOTHING, copy.from);
        edge(g, copy.to, NOTHING, part->to);
        once = copy;
    }
    return end;
}

static const char *factor(Grammar *g, const char *p, Part *part) {
    const char *start = p;
    if (*p == '"') {
        part->from = part->to = node(g);
        for (p++; *p != '"'; p++) {
            int to = node(g);
            edge(g, part->to, (unsigned char)*p, to);
            part->to = to;
        }
        return p + 1;
    }
    if (*p == '(') {
        p = choice(g, p + 1, part);
        if (*p != ')') stop("no )", p);
        return p + 1;
    }
    if (*p == '{') return repeated(g, p + 1, part);
    if (isdigit((unsigned char)*p)) {
        unsigned low, high;
        int length = 0;
        if (sscanf(p, "%u..%u%n", &low, &high, &length) != 2) stop("no range", p);
        *part = numerals(g, low, high);
        return p + length;
    }
    while (islower((unsigned char)*p)) p++;
    if (p == start) stop("nothing known", p);
    choice(g, rule(g, start, (size_t)(p - start)), part);
    return p;
}

static const char *row(Grammar *g, const char *p, Part *part) {
    part->from = part->to = node(g);
    for (p = spaces(p); *p && !strchr("|)}\n", *p); p = spaces(p)) {
        Part next;
        p = factor(g, p, &next);
        edge(g, part->to, NOTHING, next.from);
        part->to = next.to;
    }
    return p;
}

static const char *choice(Grammar *g, const char *p, Part *part) {
    part->from = node(g), part->to = node(g);
    do {
        Part one;
        p = row(g, p + (*p == '|'), &one);
        edge(g, part->from, NOTHING, one.from);
        edge(g, one.to, NOTHING, part->to);
    } while (*p == '|');
    return p;
}

/* ---- sets of nodes */

static int by_number(const void *a, const void *b) { return *(const int *)a - *(const int *)b; }

/* All that is reached without a byte; kept are the nodes that a byte leaves, and the end. */
static int closure(Grammar *g, int *set, int size) {
    static int stack[1 << 20];
    int depth = 0, kept = 0, i, e;
    g->turn++;
    for (i = 0; i < size; i++)
        if (g->mark[set[i]] != g->turn) g->mark[set[i]] = g->turn, stack[depth++] = set[i];
    while (depth) {
        int at = stack[--depth], leaves = at == g->end;
        for (e = g->edges_of[at]; e != NOTHING; e = g->edges[e].next) {
            int to = g->edges[e].to;
            if (g->edges[e].byte != NOTHING) leaves = 1;
            else if (g->mark[to] != g->turn) g->mark[to] = g->turn, stack[depth++] = to;
        }
        if (leaves) {
            if (kept == SET_MOST) stop("a set is too large", "");
            set[kept++] = at;
        }
    }
    qsort(set, (size_t)kept, sizeof *set, by_number);
    return kept;
}

static int set_of(Grammar *g, const int *nodes, int size) {
    unsigned hash = 17;
    int i, *bucket, at;
    Set fresh = {0};
    for (i = 0; i < size; i++) hash = hash * 1000003u + (unsigned)nodes[i];
    bucket = &g->buckets[hash % BUCKETS];
    for (at = *bucket; at != NOTHING; at = g->sets[at].chain)
        if (g->sets[at].size == size && memcmp(g->members + g->sets[at].first, nodes, (size_t)size * sizeof *nodes) == 0) return at;
    g->members = grown(g->members, g->member_count + size, &g->member_room, sizeof *g->members);
    memcpy(g->members + g->member_count, nodes, (size_t)size * sizeof *nodes);
    fresh.size = size, fresh.first = g->member_count, fresh.chain = *bucket;
    g->member_count += size;
    for (i = 0; i < size; i++) fresh.accepts |= nodes[i] == g->end;
    fresh.steps = malloc((size_t)g->classes * sizeof *fresh.steps);
    if (!fresh.steps) stop("no memory", "");
    for (i = 0; i < g->classes; i++) fresh.steps[i] = UNKNOWN;
    g->sets = grown(g->sets, g->set_count + 1, &g->set_room, sizeof fresh);
    g->sets[g->set_count] = fresh;
    return *bucket = g->set_count++;
}

static int stepped(Grammar *g, int from, uint8_t byte) {
    int nodes[SET_MOST], size = 0, i, e, *known = &g->sets[from].steps[g->class_of[byte]], to;
    if (*known != UNKNOWN) return *known;
    for (i = 0; i < g->sets[from].size; i++)
        for (e = g->edges_of[g->members[g->sets[from].first + i]]; e != NOTHING; e = g->edges[e].next)
            if (g->edges[e].byte == byte) {
                if (size == SET_MOST) stop("a set is too large", "");
                nodes[size++] = g->edges[e].to;
            }
    size = closure(g, nodes, size);
    to = size ? set_of(g, nodes, size) : NOTHING;
    g->sets[from].steps[g->class_of[byte]] = to;
    return to;
}

/* From every node the end must be reached: else a set that is not empty would not mean that a string goes on. */
static void all_go_on(const Grammar *g) {
    char *reaches = calloc((size_t)g->nodes, 1);
    int again = 1, i, e;
    if (!reaches) stop("no memory", "");
    reaches[g->end] = 1;
    while (again)
        for (again = 0, i = g->nodes - 1; i >= 0; i--)
            for (e = g->edges_of[i]; !reaches[i] && e != NOTHING; e = g->edges[e].next)
                if (reaches[g->edges[e].to]) reaches[i] = 1, again = 1;
    for (i = 0; i < g->nodes; i++)
        if (!reaches[i]) stop("a place that leads nowhere", g->rules);
    free(reaches);
}

Grammar *grammar_of(const char *rules) {
    Grammar *g = calloc(1, sizeof *g);
    int nodes[SET_MOST], i;
    Part whole;
    if (!g) stop("no memory", "");
    g->rules = rules;
    if (*choice(g, strchr(rules, '=') + 1, &whole) != '\n') stop("a rule does not end", rules);
    g->start = whole.from, g->end = whole.to;
    all_go_on(g);
    g->classes = 1;
    for (i = 0; i < g->edge_count; i++)
        if (g->edges[i].byte != NOTHING && !g->class_of[g->edges[i].byte]) g->class_of[g->edges[i].byte] = g->classes++;
    g->mark = calloc((size_t)g->nodes, sizeof *g->mark);
    g->buckets = malloc(BUCKETS * sizeof *g->buckets);
    if (!g->mark || !g->buckets) stop("no memory", "");
    for (i = 0; i < BUCKETS; i++) g->buckets[i] = NOTHING;
    nodes[0] = g->start;
    set_of(g, nodes, closure(g, nodes, 1));
    return g;
}

size_t grammar_refuses(Grammar *g, const uint8_t *s, size_t size) {
    size_t i;
    int at = 0;
    for (i = 0; i < size; i++)
        if ((at = stepped(g, at, s[i])) == NOTHING) return i;
    return g->sets[at].accepts ? SIZE_MAX : size;
}
