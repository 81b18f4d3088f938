/*
 * What barnsling.h claims beside the answers, tried on the archive: c/run builds and runs it.
 *
 * Empty slices may be null; a refusal writes nothing; which of two points is told for POINT alone; what a direction's answer is made of;
 * a controller that repeats its orders does no harm through barnsling_grid_gate; which cells of a way the check looks at, and which leg it
 * names; an edit that changes nothing stores nothing; and no call takes more stack than the header says.
 */
#define _XOPEN_SOURCE 600
#include "barnsling.h"
#include <setjmp.h>
#include <signal.h>
#include <stdio.h>
#include <string.h>
#include <sys/mman.h>
#include <ucontext.h>

static struct barnsling_grid grid;
static struct barnsling_rooms rooms;
static int claims, broken;

static void claim(const char *what, int holds)
{
    claims++;
    if (!holds) {
        broken++;
        printf("c/claims: does not hold: %s\n", what);
    }
}

/* ---- Null with no entries ------------------------------------------------------------------------------------- */

static int is(uint64_t v, int refusal)
{
    return BARNSLING_REFUSED(v) && BARNSLING_REFUSAL(v) == refusal;
}

static void null_tables(void)
{
    claim("new", is(barnsling_new(NULL, 0, NULL, 0, NULL, 0, NULL, 0, NULL, 0, 3, 3), BARNSLING_STATE));
    claim("set", is(barnsling_set(NULL, 0, NULL, 0, NULL, 0, NULL, 0, NULL, 0, 3, 3, 1, 0, 0, 0, 1), BARNSLING_STATE));
    claim("rebuild", is(barnsling_rebuild(NULL, 0, NULL, 0, NULL, 0, 3, 3, 1), BARNSLING_STATE));
    claim("update", is(barnsling_update(NULL, 0, NULL, 0, NULL, 0, 3, 3, 1, 1), BARNSLING_STATE));
    claim("component", is(barnsling_component(NULL, 0, NULL, 0, 3, 3, 0, 0), BARNSLING_STATE));
    claim("reachable", is(barnsling_reachable(NULL, 0, NULL, 0, 3, 3, 0, 0, 1, 1), BARNSLING_STATE));
    claim("unreachable", is(barnsling_unreachable(NULL, 0, NULL, 0, 3, 3, 0, 0, 1, 1), BARNSLING_STATE));
    claim("near", is(barnsling_neighbours_reachable(NULL, 0, NULL, 0, 3, 3, 1, 0, 0, 1, 1), BARNSLING_STATE));
    claim("far", is(barnsling_neighbours_unreachable(NULL, 0, NULL, 0, 3, 3, 1, 0, 0, 1, 1), BARNSLING_STATE));
    claim("blocked_at", is(barnsling_blocked_at(NULL, 0, NULL, 0, NULL, 0, 3, 3, 0, 0), BARNSLING_STATE));
    claim("neighbours_at", is(barnsling_neighbours_at(NULL, 0, NULL, 0, NULL, 0, 3, 3, 0, 0), BARNSLING_STATE));
    claim("forced_at", is(barnsling_forced_at(NULL, 0, NULL, 0, NULL, 0, 3, 3, 0, 0), BARNSLING_STATE));
    claim("pruned_at", is(barnsling_pruned_at(NULL, 0, NULL, 0, NULL, 0, 3, 3, 1, 0, 0, 0), BARNSLING_STATE));
}

/* Lists, texts and rooms of nothing. The rooms of a search are lent with a good grid, so that they are what is refused. */
static void null_lists(void)
{
    int32_t two[] = {0, 0};
    claim("path of no list", barnsling_waypoints_to_path(NULL, 0, rooms.out, BARNSLING_OUT).refusal == BARNSLING_LIST);
    claim("path in no room", barnsling_waypoints_to_path(two, 2, NULL, 0).refusal == BARNSLING_ROOM);
    claim("check of no list", barnsling_grid_check_route(&grid, NULL, 0).refusal == BARNSLING_LIST);
    claim("text in no room", is(barnsling_route_text(NULL, 0, NULL, 0), BARNSLING_ROOM));
    claim("no goals", barnsling_grid_multiple_goals(&grid, &rooms, 0, 0, NULL, 0).refusal == BARNSLING_GOALS);
    claim("no room", barnsling_single_goal(grid.blocked, 4096, grid.neighbours, 4096, grid.forced, 4096, grid.parent, 4096, grid.rank, 4096,
        NULL, 0, NULL, 0, NULL, 0, NULL, 0, NULL, 0, NULL, 0, NULL, 0, grid.width, grid.height, 1, 1, 1, 64, 65535, 8192,
        0, 0, 0, 0, 0).refusal == BARNSLING_SETTING);
}

/* ---- Refusals and repeated orders ----------------------------------------------------------------------------- */

static void refusals(void)
{
    static struct barnsling_grid before;
    memcpy(&before, &grid, sizeof grid);
    claim("a new grid of 65 by 3", is(barnsling_grid_new(&grid, 65, 3), BARNSLING_SIZE));
    claim("a gate outside", is(barnsling_grid_gate(&grid, 64, 0, 1), BARNSLING_POINT));
    claim("a cell outside", is(barnsling_grid_set(&grid, -1, 0, 1), BARNSLING_POINT));
    claim("a refusal writes nothing", memcmp(&before, &grid, sizeof grid) == 0);
    claim("SETTING tells of no point", barnsling_scaled_distance(17, 1, 0, 0, 1, 0) == (uint64_t)BARNSLING_SETTING << 32);
    claim("SAME tells of no point", barnsling_direction(1, 1, 1, 1) == (uint64_t)BARNSLING_SAME << 32);
    claim("the first point", BARNSLING_WHICH_POINT(barnsling_direction(1024, 0, 0, 0)) == 1);
    claim("the second point", BARNSLING_WHICH_POINT(barnsling_direction(0, 0, 0, -1025)) == 2);
    claim("the goal", BARNSLING_WHICH_POINT(barnsling_grid_reachable(&grid, 0, 0, 1024, 0)) == 2);
}

static void repeated_orders(void)
{
    static struct barnsling_grid hall;
    barnsling_grid_new(&hall, 3, 1);
    barnsling_grid_gate(&hall, 1, 0, 1);
    barnsling_grid_rebuild(&hall);
    barnsling_grid_gate(&hall, 1, 0, 1);
    claim("a gate shut twice stays shut", hall.dirty == 0 && barnsling_grid_reachable(&hall, 0, 0, 2, 0) == 0);
    barnsling_grid_gate(&hall, 1, 0, 0);
    claim("and opens", barnsling_grid_blocked_at(&hall, 1, 0) == 0 && barnsling_grid_reachable(&hall, 0, 0, 2, 0) == 1);
}

/* ---- Directions ----------------------------------------------------------------------------------------------- */

static int heads(uint64_t v, int direction, int bent, int length)
{
    return !BARNSLING_REFUSED(v) && BARNSLING_DIRECTION(v) == direction && BARNSLING_BENT(v) == bent && BARNSLING_LENGTH(v) == length;
}

/* What is left of a refusal for the three macros. */
static int headless(uint64_t v)
{
    return BARNSLING_REFUSED(v) && BARNSLING_DIRECTION(v) == 0 && BARNSLING_BENT(v) == 0 && BARNSLING_LENGTH(v) == 0;
}

static void headings(void)
{
    claim("one step", heads(barnsling_direction(4, 4, 4, 3), 0, 0, 1));
    claim("a line", heads(barnsling_direction(4, 4, -3, 4), 6, 0, 7));
    claim("a slant on which x and y go apart is straight", heads(barnsling_direction(0, 0, 3, -3), 1, 0, 3));
    claim("the larger difference along x", heads(barnsling_direction(0, 0, 5, -1), 1, 1, 5));
    claim("the larger difference along y", heads(barnsling_direction(0, 0, -4, 5), 5, 1, 5));
    claim("the longest line", heads(barnsling_direction(-1024, 1023, 1023, 1023), 2, 0, 2047));
    claim("the longest slant", heads(barnsling_direction(1023, 1023, -1024, -1024), 7, 0, 2047));
    claim("one off it", heads(barnsling_direction(1023, 1023, -1024, -1023), 7, 1, 2047));
    claim("the parts make the answer", barnsling_direction(0, 0, 5, -1) == 16 * 5 + 8 * 1 + 1);
    claim("v & 7 of a straight one", (barnsling_direction(0, 0, 3, -3) & 7) == 1);
    claim("v & 7 of a bent one", (barnsling_direction(0, 0, -4, 5) & 7) == 5);
    claim("SAME has no parts", headless(barnsling_direction(1, 1, 1, 1)));
    claim("POINT has no parts", headless(barnsling_direction(1024, 0, 0, 0)));
}

/* ---- The whole way -------------------------------------------------------------------------------------------- */

/* Whether the way over three points in the first row is clear, by their columns. */
static uint64_t clear(const struct barnsling_grid *g, int32_t from, int32_t over, int32_t to)
{
    int32_t list[] = {from, 0, over, 0, to, 0};
    return barnsling_grid_check_route(g, list, 6).clear;
}

static void whole_way(void)
{
    static struct barnsling_grid hall;
    barnsling_grid_new(&hall, 4, 1);
    barnsling_grid_gate(&hall, 1, 0, 1);
    claim("a bench between two points is seen", clear(&hall, 0, 0, 2) == 0);
    claim("a blocked first point is not looked at", clear(&hall, 1, 1, 3) == 1);
    claim("but where the way comes back to it", clear(&hall, 1, 3, 1) == 0);
    claim("nor is one outside", clear(&hall, 4, 3, 2) == 1);
    claim("but what is walked outside after it", clear(&hall, 5, 3, 2) == 0);
}

static int says(struct barnsling_check c, uint64_t refusal, uint64_t is_clear, uint64_t bent)
{
    return c.refusal == refusal && c.clear == is_clear && c.bent == bent;
}

static void first_bent_leg(void)
{
    static struct barnsling_grid hall;
    static const int32_t slants[] = {0, 2, 2, 0, 3, 1};
    static const int32_t behind[] = {0, 0, 2, 0, 3, 2};
    static const int32_t equal[] = {0, 2, 0, 2, 2, 1, 2, 1, 0, 2};
    static const int32_t at_the_end[] = {0, 2, 2, 2, 2, 2};
    static const int32_t faulty[] = {3, 2, 2, 0, 4, 1024};
    struct barnsling_reply path = barnsling_waypoints_to_path(behind, 6, rooms.out, BARNSLING_OUT);
    barnsling_grid_new(&hall, 4, 3);
    barnsling_grid_gate(&hall, 1, 0, 1);
    claim("slants do not bend", says(barnsling_grid_check_route(&hall, slants, 6), 0, 1, 0));
    claim("a bend is named behind a bench", says(barnsling_grid_check_route(&hall, behind, 6), 0, 0, 2));
    claim("its path names none", says(barnsling_grid_check_route(&hall, rooms.out, 2 * (size_t)path.value), 0, 0, 0));
    claim("equal points are a leg, and the first bend is named", says(barnsling_grid_check_route(&hall, equal, 10), 0, 1, 2));
    claim("equal points do not bend", says(barnsling_grid_check_route(&hall, at_the_end, 6), 0, 1, 0));
    claim("one point has no leg", says(barnsling_grid_check_route(&hall, faulty, 2), 0, 1, 0));
    claim("LIST names no leg", says(barnsling_grid_check_route(&hall, faulty, 5), BARNSLING_LIST, 0, 0));
    claim("POINT names no leg", says(barnsling_grid_check_route(&hall, faulty, 6), BARNSLING_POINT, 0, 0));
}

/* ---- Stores --------------------------------------------------------------------------------------------------- */

enum { PAGE = 4096, PAGES = sizeof(struct barnsling_grid) / PAGE + 1 };
static unsigned char pages[(PAGES + 1) * PAGE];
static sigjmp_buf at_store;

static void on_store(int number)
{
    (void)number;
    siglongjmp(at_store, 1);
}

/* Each cell is told to be what it is. */
static void told_again(struct barnsling_grid *g)
{
    int i;
    for (i = 0; i < 99; i++)
        barnsling_set(
            g->blocked, BARNSLING_CELLS, g->neighbours, BARNSLING_CELLS, g->forced, BARNSLING_CELLS,
            g->parent, BARNSLING_CELLS, g->rank, BARNSLING_CELLS, 11, 9, 1, 0, i % 11, i / 11, g->blocked[i]);
}

/* The first two times cells are joined and parents halved. Then nothing is left to change, and the pages may be read-only. */
static void stores(void)
{
    struct barnsling_grid *g = (struct barnsling_grid *)(pages + (PAGE - (uintptr_t)pages % PAGE) % PAGE);
    volatile int silent = 0;
    int i;
    barnsling_grid_new(g, 11, 9);
    for (i = 0; i < 99; i++)
        barnsling_grid_set(g, i % 11, i / 11, i * 7 % 4 == 0);
    barnsling_grid_rebuild(g);
    told_again(g);
    told_again(g);
    signal(SIGSEGV, on_store);
    mprotect(g, PAGES * PAGE, PROT_READ);
    if (sigsetjmp(at_store, 1) == 0) {
        told_again(g);
        silent = 1;
    }
    mprotect(g, PAGES * PAGE, PROT_READ | PROT_WRITE);
    signal(SIGSEGV, SIG_DFL);
    claim("an edit that changes nothing stores nothing", silent);
}

/* ---- Stack ---------------------------------------------------------------------------------------------------- */

static unsigned char stack[1 << 20];
static ucontext_t here, there;
static volatile uint64_t sum;

/* How much of a stack of its own, painted before, a function writes. */
static size_t stack_of(void (*run)(void))
{
    size_t i = 0;
    memset(stack, 0xA5, sizeof stack);
    getcontext(&there);
    there.uc_stack.ss_sp = stack;
    there.uc_stack.ss_size = sizeof stack;
    there.uc_link = &here;
    makecontext(&there, run, 0);
    swapcontext(&here, &there);
    while (i < sizeof stack && stack[i] == 0xA5)
        i++;
    return sizeof stack - i;
}

static void nothing(void) { sum += 1; }

static void pruned_masks(void)
{
    int i;
    for (i = 0; i < 16; i++)
        sum += barnsling_pruned_mask((uint8_t)(i / 8), (uint8_t)i, 255) + barnsling_grid_pruned_at(&grid, 3, 3, (uint8_t)i);
}

static void small_calls(void)
{
    int32_t list[] = {0, 0, 63, 63, 0, 63};
    int i;
    sum += barnsling_forced_mask(1) + barnsling_direction(0, 0, 3, 1) + barnsling_scaled_distance(1.5f, 1, 0, 0, 3, 1);
    for (i = 0; i < 4096; i++)
        sum += barnsling_grid_set(&grid, i % 64, i / 64, i * 7919 % 5 == 0);
    sum += barnsling_grid_rebuild(&grid) + barnsling_grid_neighbours_reachable(&grid, 0, 0, 63, 63);
    sum += barnsling_grid_check_route(&grid, list, 6).bent;
    sum += barnsling_waypoints_to_path(list, 6, rooms.out, BARNSLING_OUT).value;
}

static void searches(void)
{
    static const int32_t goals[] = {63, 1, 1, 63};
    int i;
    for (i = 0; i < 64; i++) {
        sum += barnsling_grid_single_goal(&grid, &rooms, i, i, 63 - i, 63).pops;
        sum += barnsling_grid_multiple_goals(&grid, &rooms, i, 0, goals, 4).pops;
    }
}

static void a_text(void)
{
    static const char text[] = "width=3\nheight=1\ndiagonal=1\nstart=0,0\ngoal=2,0\nrow=...\n";
    static uint8_t printed[BARNSLING_TEXT_ROOM];
    sum += barnsling_route_text((const uint8_t *)text, sizeof text - 1, printed, sizeof printed);
}

static void stacks(void)
{
    size_t none = stack_of(nothing);
    claim("the pruned masks take 2.3 kB", stack_of(pruned_masks) - none <= 2300);
    claim("a search takes at most 90 kB", stack_of(searches) - none <= 90000);
    claim("other calls take less than 1 kB", stack_of(small_calls) - none < 1000);
    claim("a text takes at most 512 kB", stack_of(a_text) - none <= 512000);
}

int main(void)
{
    claim("the archive is of the header's version", barnsling_version() == BARNSLING_VERSION);
    barnsling_grid_new(&grid, 64, 64);
    barnsling_grid_rebuild(&grid);
    null_tables();
    null_lists();
    refusals();
    repeated_orders();
    headings();
    whole_way();
    first_bent_leg();
    stores();
    stacks();
    printf("c/claims: %d of the header's claims tried, %d broken\n", claims, broken);
    return broken != 0;
}
