/*
 * The stores of an edit, seen from outside: which entries of the lent tables barnsling_set stores to, and which of them keep the
 * value that they had. compare/run stores links it with the archive and runs it. Linux on x86-64.
 *
 * While the call runs, the tables lie in read-only pages, so that each store to them faults. The handler lets that one instruction
 * run by a single step, and does so twice: once over the tables with every bit turned, and then, with the registers and the tables
 * put back, as it would have run. A byte that a store writes is changed in one of the two, whatever value is written; the byte at which
 * it faulted is counted in any case.
 */
#define _GNU_SOURCE
#include "barnsling.h"
#include <signal.h>
#include <stdio.h>
#include <stdlib.h>
#include <string.h>
#include <sys/mman.h>
#include <ucontext.h>

enum { PARENT, BLOCKED, NEIGHBOURS, FORCED, RANK, TABLES };
enum { SIDE = 64, SPARE = 4, MOST = (SIDE * SIDE + SPARE) * (TABLES + 1) };
enum { OPENS, SHUTS, BLOCKED_AGAIN, FREED_AGAIN, KINDS };
enum { FLOOR, MADE, ANY, ORIGINS };

static const char *const table_names[] = {"parent", "blocked", "neighbours", "forced", "rank"};
static const char *const kind_names[] = {"opens", "shuts", "blocked again", "freed again"};
static const char *const origin_names[] = {
    "40 by 40, a quarter blocked, each edit straight after a rebuild",
    "grids that calls made, sides 1 to 64, runs of edits after a rebuild",
    "legal tables that no calls made, sides 1 to 64, chains of parents, runs of edits"};

/* What was seen of the edits of one kind. */
struct tally {
    unsigned long edits, stored[TABLES], all, differ, vain;
};

/* A grid: its sides, and how many entries of each table are lent. The tables follow one another, the parents first. */
struct grid {
    size_t w, h, len;
    int diagonal, dirty;
};

static struct grid grid;
static unsigned char *lent;                /* the tables, in the pages that are watched */
static unsigned char *plain;               /* a copy of them, for the same edit unwatched */
static unsigned char kept[MOST];           /* the tables before the edit */
static unsigned long halves, past;         /* parents stored by half, entries stored past the cells */
static unsigned long unlike, unseen;       /* edits that come out otherwise than unwatched, that changed more than was seen */
static uint64_t state;

static unsigned below(unsigned n)
{
    uint64_t z = state += 0x9e3779b97f4a7c15u;
    z = (z ^ z >> 30) * 0xbf58476d1ce4e5b9u;
    z = (z ^ z >> 27) * 0x94d049bb133111ebu;
    return (unsigned)((z ^ z >> 31) % n);
}

/* ---- The tables ----------------------------------------------------------------------------------------------- */

static size_t entry_size(int table) { return table == PARENT ? 2 : 1; }

static size_t table_start(int table) { return table == PARENT ? 0 : grid.len * (size_t)(table + 1); }

static size_t bytes(void) { return grid.len * (TABLES + 1); }

static unsigned char *byte_table(unsigned char *at, int table) { return at + table_start(table); }

static uint16_t *parents(unsigned char *at) { return (uint16_t *)(void *)at; }

static uint64_t new_grid(unsigned char *at)
{
    return barnsling_new(
        byte_table(at, BLOCKED), grid.len, byte_table(at, NEIGHBOURS), grid.len, byte_table(at, FORCED), grid.len,
        parents(at), grid.len, byte_table(at, RANK), grid.len, grid.w, grid.h);
}

static uint64_t set(unsigned char *at, size_t cell, int block)
{
    return barnsling_set(
        byte_table(at, BLOCKED), grid.len, byte_table(at, NEIGHBOURS), grid.len, byte_table(at, FORCED), grid.len,
        parents(at), grid.len, byte_table(at, RANK), grid.len, grid.w, grid.h,
        (uint8_t)grid.diagonal, (uint8_t)grid.dirty, (int32_t)(cell % grid.w), (int32_t)(cell / grid.w), (uint8_t)block);
}

static uint64_t rebuild(unsigned char *at)
{
    return barnsling_rebuild(
        byte_table(at, BLOCKED), grid.len, parents(at), grid.len, byte_table(at, RANK), grid.len,
        grid.w, grid.h, (uint8_t)grid.diagonal);
}

static void sides(size_t w, size_t h)
{
    grid.w = w;
    grid.h = h;
    grid.len = w * h + SPARE;
    memset(lent, 0xA5, MOST);
}

/* A grid by calls: so many cells of a hundred blocked, rebuilt. */
static void make(size_t w, size_t h, unsigned density)
{
    size_t i;
    sides(w, h);
    new_grid(lent);
    for (i = 0; i < w * h; i++)
        if (below(100) < density)
            set(lent, i, 1);
    grid.dirty = (int)rebuild(lent);
}

/* Any legal tables. A cell hangs below the lowest of the higher cells that some draws find, or is its own parent where they find none:
   the more draws, the longer the chains. */
static void make_up(size_t w, size_t h)
{
    static const unsigned char marks[] = {0, 0, 0, 1, 1, 7, 255};
    unsigned n = (unsigned)(w * h), top = 1 + below(200), draws = 1 + below(24), i, k;
    unsigned char *rank;
    sides(w, h);
    rank = byte_table(lent, RANK);
    grid.dirty = (int)below(2);
    for (i = 0; i < n; i++) {
        byte_table(lent, BLOCKED)[i] = marks[below(sizeof marks)];
        byte_table(lent, NEIGHBOURS)[i] = (unsigned char)below(256);
        byte_table(lent, FORCED)[i] = (unsigned char)below(256);
        rank[i] = (unsigned char)below(top + 1);
    }
    for (i = 0; i < n; i++) {
        unsigned parent = i;
        for (k = 0; k < draws; k++) {
            unsigned other = below(n);
            if (rank[other] > rank[i] && (parent == i || rank[other] < rank[parent]))
                parent = other;
        }
        parents(lent)[i] = (uint16_t)parent;
    }
}

/* ---- The watch ------------------------------------------------------------------------------------------------ */

enum { TRAP_FLAG = 0x100 };

static volatile enum { IDLE, TURNED, REAL } step;
static gregset_t registers;
static size_t fault; /* which byte of the tables the store faulted at */
static unsigned char before[MOST], stored[MOST]; /* at the store that is looked at */
static struct tally *watched;
static char edit_text[120];

/* One entry of which a store wrote some bytes, or all. */
static void count_entry(int table, size_t i)
{
    size_t size = entry_size(table), at = table_start(table) + i * size;
    watched->stored[table]++;
    watched->all++;
    if (i >= grid.w * grid.h)
        past++;
    if (size == 2 && stored[at] != stored[at + 1])
        halves++;
    if (memcmp(lent + at, before + at, size) != 0)
        return;
    if (watched->vain++ == 0)
        fprintf(stderr, "in vain: %s: %s[%zu] stored as it was\n", edit_text, table_names[table], i);
}

static void count_store(void)
{
    int table;
    size_t i, k;
    for (table = 0; table < TABLES; table++)
        for (i = 0; i < grid.len; i++)
            for (k = 0; k < entry_size(table); k++)
                if (stored[table_start(table) + i * entry_size(table) + k]) {
                    count_entry(table, i);
                    break;
                }
}

static void protect(int how)
{
    if (mprotect(lent, MOST, how) != 0)
        abort();
}

static void on_store(int signal_number, siginfo_t *info, void *context)
{
    greg_t *now = ((ucontext_t *)context)->uc_mcontext.gregs;
    unsigned char *at = info->si_addr;
    size_t i;
    if (step != IDLE || at < lent || at >= lent + bytes()) {
        signal(signal_number, SIG_DFL);
        return;
    }
    protect(PROT_READ | PROT_WRITE);
    memcpy(before, lent, bytes());
    for (i = 0; i < bytes(); i++)
        lent[i] = (unsigned char)~before[i];
    fault = (size_t)(at - lent);
    memcpy(registers, now, sizeof registers);
    now[REG_EFL] |= TRAP_FLAG;
    step = TURNED;
}

static void on_step(int signal_number, siginfo_t *info, void *context)
{
    greg_t *now = ((ucontext_t *)context)->uc_mcontext.gregs;
    size_t i;
    (void)info;
    if (step == TURNED) {
        for (i = 0; i < bytes(); i++)
            stored[i] = i == fault || lent[i] != (unsigned char)~before[i];
        memcpy(lent, before, bytes());
        memcpy(now, registers, sizeof registers);
        now[REG_EFL] |= TRAP_FLAG;
        step = REAL;
    } else if (step == REAL) {
        for (i = 0; i < bytes(); i++)
            stored[i] |= lent[i] != before[i];
        count_store();
        protect(PROT_READ);
        now[REG_EFL] &= ~(greg_t)TRAP_FLAG;
        step = IDLE;
    } else {
        signal(signal_number, SIG_DFL);
    }
}

static unsigned char *pages(void)
{
    void *at = mmap(NULL, MOST, PROT_READ | PROT_WRITE, MAP_PRIVATE | MAP_ANONYMOUS, -1, 0);
    if (at == MAP_FAILED)
        abort();
    return at;
}

static void watch(void)
{
    struct sigaction action;
    memset(&action, 0, sizeof action);
    sigemptyset(&action.sa_mask);
    action.sa_flags = SA_SIGINFO;
    action.sa_sigaction = on_store;
    sigaction(SIGSEGV, &action, NULL);
    action.sa_sigaction = on_step;
    sigaction(SIGTRAP, &action, NULL);
    lent = pages();
    plain = pages();
}

/* ---- Edits ---------------------------------------------------------------------------------------------------- */

static unsigned long differing(const unsigned char *a, const unsigned char *b)
{
    unsigned long n = 0;
    size_t i, at;
    int table;
    for (table = 0; table < TABLES; table++)
        for (i = 0; i < grid.len; i++) {
            at = table_start(table) + i * entry_size(table);
            n += memcmp(a + at, b + at, entry_size(table)) != 0;
        }
    return n;
}

/* One edit, unwatched on a copy and then watched: whether it was accepted. */
static int edit(struct tally *tallies, size_t cell, int block)
{
    int was = byte_table(lent, BLOCKED)[cell] != 0;
    uint64_t expected, answer;
    unsigned long differ, all;
    memcpy(kept, lent, bytes());
    memcpy(plain, lent, bytes());
    expected = set(plain, cell, block);
    if (BARNSLING_REFUSED(expected))
        return 0;
    watched = &tallies[was ? (block ? BLOCKED_AGAIN : OPENS) : (block ? SHUTS : FREED_AGAIN)];
    snprintf(edit_text, sizeof edit_text, "%zu by %zu, %s, cell %zu, %s told to be %s", grid.w, grid.h,
        grid.diagonal ? "diagonals" : "straight", cell, was ? "blocked" : "free", block ? "blocked" : "free");
    all = watched->all;
    protect(PROT_READ);
    answer = set(lent, cell, block);
    protect(PROT_READ | PROT_WRITE);
    differ = differing(lent, kept);
    unlike += answer != expected || memcmp(lent, plain, bytes()) != 0;
    unseen += watched->all - all < differ;
    watched->edits++;
    watched->differ += differ;
    grid.dirty = (int)answer;
    return 1;
}

/* A cell that is blocked, or one that is free, where some draws find one. */
static size_t any_cell(int blocked)
{
    size_t cell = 0;
    int draws;
    for (draws = 0; draws < 40; draws++) {
        cell = below((unsigned)(grid.w * grid.h));
        if ((byte_table(lent, BLOCKED)[cell] != 0) == blocked)
            break;
    }
    return cell;
}

static void edits(int origin, struct tally *tallies)
{
    static unsigned char rebuilt[MOST];
    static size_t turn;
    size_t w = 1 + turn % SIDE, h = 1 + (turn * 37 + turn / SIDE) % SIDE;
    int left = 100;
    turn++;
    if (origin == FLOOR)
        make(40, 40, 25);
    else if (origin == MADE)
        make(w, h, below(80));
    else
        make_up(w, h);
    memcpy(rebuilt, lent, bytes());
    while (left-- > 0 && edit(tallies, any_cell((int)below(2)), (int)below(2)))
        if (origin == FLOOR) {
            memcpy(lent, rebuilt, bytes());
            grid.dirty = 0;
        }
}

/* ---- The account ---------------------------------------------------------------------------------------------- */

static unsigned long fewest(const struct tally *tallies)
{
    unsigned long n = tallies[0].edits;
    int kind;
    for (kind = 1; kind < KINDS; kind++)
        if (tallies[kind].edits < n)
            n = tallies[kind].edits;
    return n;
}

static void tell(const struct tally *t, int kind)
{
    double n = (double)t->edits;
    int table;
    printf("%-9s %-13s %6lu", grid.diagonal ? "diagonals" : "straight", kind_names[kind], t->edits);
    for (table = 0; table < TABLES; table++)
        printf(" %10.2f", (double)t->stored[table] / n);
    printf(" %7.2f %7.2f %9lu\n", (double)t->all / n, (double)t->differ / n, t->vain);
}

/* Edits of each kind, as many as are wanted, told and added to the sum. */
static void count(int origin, unsigned long want, struct tally *sum)
{
    struct tally tallies[KINDS];
    int kind;
    memset(tallies, 0, sizeof tallies);
    while (fewest(tallies) < want)
        edits(origin, tallies);
    for (kind = 0; kind < KINDS; kind++) {
        tell(&tallies[kind], kind);
        sum->edits += tallies[kind].edits;
        sum->all += tallies[kind].all;
        sum->vain += tallies[kind].vain;
    }
    fflush(stdout);
}

int main(int argc, char **argv)
{
    static struct tally sum;
    unsigned long want;
    int origin, table;
    if (argc != 3) {
        fprintf(stderr, "stores SEED EDITS: as many edits of each kind, at least\n");
        return 2;
    }
    state = strtoull(argv[1], NULL, 10);
    want = strtoul(argv[2], NULL, 10);
    watch();
    printf("entries stored to in an edit, in the mean, and those that differ after it; in vain: stored and not changed, in all edits\n");
    for (origin = 0; origin < ORIGINS; origin++) {
        printf("\n%s\n%-9s %-13s %6s", origin_names[origin], "", "", "edits");
        for (table = 0; table < TABLES; table++)
            printf(" %10s", table_names[table]);
        printf(" %7s %7s %9s\n", "all", "differ", "in vain");
        for (grid.diagonal = 1; grid.diagonal >= 0; grid.diagonal--)
            count(origin, want, &sum);
    }
    printf("\nstores: %lu entries in %lu edits, %lu in vain, %lu parents by half, %lu past the cells\n",
        sum.all, sum.edits, sum.vain, halves, past);
    if (unlike + unseen != 0)
        printf("the watch itself is at fault: %lu edits came out otherwise than unwatched, in %lu a store was missed\n", unlike, unseen);
    return sum.vain + halves + past + unlike + unseen != 0;
}
