// The work of crates/diagram_bench over BuDDy: pairs of codes of 16 bits go into a set, and leave it so many rounds later.
// usage: diagrams ROUNDS WINDOW EVERY DENSE [CACHE [count]]
// The first four numbers are those of diagram_bench. CACHE is the size of each of BuDDy's caches. With `count` the
// look-ups of the work are counted beside, which takes long.
#include <bdd.h>

#include <cstdint>
#include <cstdio>
#include <cstdlib>
#include <cstring>
#include <unordered_set>

// BuDDy's own making of a node, and the stack on which it wants the nodes that are not counted yet.
extern "C" BDD bdd_makenode(unsigned int level, BDD low, BDD high);
extern "C" int* bddrefstacktop;

static const int NODES = 1048576;
static bool counting = false;
static uint64_t operations = 0;
static uint64_t lookups = 0;
static std::unordered_set<uint64_t> seen;

// A linear congruence's upper halves, of which only the bits of a mask are kept. The upper 16 bits are the first code.
struct Codes {
    uint64_t state;
    uint32_t mask;
    uint32_t next_pair() {
        state = state * 6364136223846793005u + 1442695040888963407u;
        return state >> 32 & mask;
    }
};

// The answer of an operation that needs no look-up, or -1.
static BDD at_once(int op, BDD u, BDD v) {
    if (op == bddop_and) return u == 0 || v == 0 ? 0 : u == 1 || u == v ? v : v == 1 ? u : -1;
    if (op == bddop_or) return u == 1 || v == 1 ? 1 : u == 0 || u == v ? v : v == 0 ? u : -1;
    return u == 0 || v == 1 || u == v ? 0 : v == 0 ? u : -1;
}

// The look-ups of an operation whose memo forgets nothing before its end: one in the memo for each call that is not
// answered at once, and one in the table for each of these that the memo does not answer.
static void count_lookups(int op, BDD u, BDD v) {
    if (at_once(op, u, v) != -1) return;
    lookups++;
    if (!seen.insert((uint64_t)u << 32 | (uint32_t)v).second) return;
    lookups++;
    int left = u < 2 ? 65536 : bdd_var(u), right = v < 2 ? 65536 : bdd_var(v);
    bool down_left = left <= right, down_right = right <= left;
    count_lookups(op, down_left ? bdd_low(u) : u, down_right ? bdd_low(v) : v);
    count_lookups(op, down_left ? bdd_high(u) : u, down_right ? bdd_high(v) : v);
}

static BDD combine(int op, BDD u, BDD v) {
    operations++;
    if (counting) {
        seen.clear();
        count_lookups(op, u, v);
    }
    BDD known = at_once(op, u, v);
    return known != -1 ? known : bdd_apply(u, v, op);
}

// The cube of a code's 16 bits, from the last level up.
static BDD cube(int first, uint32_t code) {
    operations++;
    lookups += 16;
    BDD h = 1;
    *bddrefstacktop++ = h;
    for (int i = 15; i >= 0; i--) {
        bool bit = code >> (15 - i) & 1;
        bddrefstacktop[-1] = h = bit ? bdd_makenode(first + i, 0, h) : bdd_makenode(first + i, h, 0);
    }
    bddrefstacktop--;
    return h;
}

static BDD pair_cube(uint32_t pair) {
    BDD first = bdd_addref(cube(0, pair >> 16));
    BDD second = bdd_addref(cube(16, pair & 0xffff));
    BDD both = combine(bddop_and, first, second);
    bdd_delref(first);
    bdd_delref(second);
    return both;
}

// The set that a set becomes by a pair. It counts as used, and the set before no longer does.
static BDD with_pair(int op, BDD set, uint32_t pair) {
    BDD alone = bdd_addref(pair_cube(pair));
    BDD made = bdd_addref(combine(op, set, alone));
    bdd_delref(alone);
    bdd_delref(set);
    return made;
}

static bool is_due(uint32_t round, uint32_t every) { return every != 0 && round % every == every - 1; }

int main(int argc, char** argv) {
    if (argc < 5) return 2;
    uint32_t rounds = atoi(argv[1]), window = atoi(argv[2]), every = atoi(argv[3]);
    uint32_t mask = atoi(argv[4]) == 1 ? 0x03ff03ff : 0xffffffff;
    int cache = argc > 5 ? atoi(argv[5]) : 65536;
    counting = argc > 6 && !strcmp(argv[6], "count");
    bdd_init(NODES, cache);
    bdd_gbc_hook(nullptr);
    int table = bdd_getallocnum();
    bdd_setvarnum(32);
    BDD seconds = 1;
    for (int i = 31; i >= 16; i--) seconds = bdd_addref(bdd_makenode(i, 0, seconds));

    Codes coming{1, mask}, going = coming;
    BDD set = bdd_addref(0);
    for (uint32_t round = 0; round < rounds; round++) {
        uint32_t pair = coming.next_pair();
        set = with_pair(bddop_or, set, pair);
        if (round >= window) set = with_pair(bddop_diff, set, going.next_pair());
        if (is_due(round, 64)) {
            BDD first = bdd_addref(cube(0, pair >> 16));
            combine(bddop_and, set, first);
            bdd_delref(first);
        }
        if (is_due(round, every)) {
            operations++;
            bdd_exist(set, seconds);
        }
    }
    if (bdd_getallocnum() != table) {
        fprintf(stderr, "the table has grown\n");
        return 1;
    }
    bddStat stat;
    bdd_stats(&stat);
    BDD codes = bdd_addref(bdd_exist(set, seconds));
    printf("operations %llu nodes %ld left %d range %d", (unsigned long long)operations, stat.produced,
           bdd_nodecount(set), bdd_nodecount(codes));
    if (counting) printf(" look-ups %llu", (unsigned long long)lookups);
    printf("\n");
    return 0;
}
