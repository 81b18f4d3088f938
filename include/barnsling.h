/*
 * Barnsling for C and C++: can this cart get there, and which way?
 *
 * Link with target/staticlib/libboundary.a, which `.ci/archive` makes, for x86-64 alone. Of other libraries it wants
 * memcpy and memset and nothing else. Most programs want only the last part of this file, "A grid in one struct"; c/example.c is
 * a whole program.
 *
 * THE RULE. Once the tables have been built (barnsling_rebuild), a no between two different free cells is always true.
 * A yes may be hopeful after a gate has shut, until the tables are built again. The rule holds as long as the diagonal
 * flag stays the one that the tables were built with.
 *
 * A DAY. New tables; block the benches and walls; rebuild. Each gate that opens or shuts is one barnsling_set, and
 * questions may follow at once: nothing is rebuilt. When there is time, barnsling_update builds the tables again if a gate has
 * shut since, and after it a yes is true too.
 *
 * GATES THAT REPEAT THEMSELVES. On a grid that is not dirty a yes is true, unless an order since the last rebuild blocked a cell that
 * was blocked already. Such an order joins the cell's free neighbours in the tables, as if the gate were open, and leaves the dirty mark
 * as it was. The yes is then false, barnsling_update does nothing about it, and a search ends in EXHAUSTED; barnsling_rebuild heals
 * it. A controller that repeats its orders asks barnsling_blocked_at first, and leaves a cell alone that is
 * already as ordered; barnsling_grid_gate, below, does just that. A no is true all the same.
 *
 * MEMORY. You own all of it and lend it for one call. Nothing is kept between calls; nothing is allocated; there are no
 * globals. Threads may call at once, as long as no table that one call writes is lent to another call. A table is lent
 * as a pointer and its number of entries. The pointer must be aligned for its type, it may be null only if the number of entries is 0,
 * and what a call writes must not overlap anything else lent to that call. This is all that you owe: every call tests the rest, and a
 * table that is too short or holds nonsense is refused by name.
 *
 * COST. A call that is lent tables tests every cell of them first, 1 to 4 microseconds at 64 by 64 on the machines of
 * docs/PERFORMANCE.md. A question or an edit takes little more; a rebuild takes some 20 to 70, a search 4 to 75.
 *
 * STACK. A search takes about 5 kB and up to 1.3 kB more for each level of its depth limit: by its frames at most 90 kB (63 kB was the
 * most seen). barnsling_route_text keeps a grid and working room there too, some 340 kB: give it 512 kB. The pruned masks take 2.3 kB,
 * every other call less than 1 kB.
 *
 * CELLS. The cell (x, y) is the entry y * width + x of each table. Row 0 is the northern one. Directions 0 to 7 go
 * clockwise from north: (0,-1), (1,-1), (1,0), (1,1), (0,1), (-1,1), (-1,0), (-1,-1). In a mask, bit d is direction d.
 *
 * FLAGS. A flag is off at 0 and on at any other value. diagonal: carts move eight ways, else four.
 */
#ifndef BARNSLING_H
#define BARNSLING_H

#include <stddef.h>
#include <stdint.h>

#ifdef __cplusplus
extern "C" {
#endif

/* The number of this interface. It rises where a declaration, what an answer says or its form, or a refusal's number changes: a
   program that was built with another number than the archive's must be built anew. */
#define BARNSLING_VERSION 4

/* The archive's number. Ask it once, and go on only if it is BARNSLING_VERSION. */
uint32_t barnsling_version(void);

/* ---- Limits and sizes ------------------------------------------------------------------------------------------ */

enum {
    BARNSLING_MOST_SIDE = 64,           /* width and height are from 1 to this */
    BARNSLING_LEAST_COORDINATE = -1024, /* a point's x and y are from this ... */
    BARNSLING_MOST_COORDINATE = 1023,   /* ... to this */
    BARNSLING_MOST_GOALS = 64,          /* goals of a search are from 1 to this */
    BARNSLING_MOST_FACTOR = 16,         /* the factor is from 0 to this */
    BARNSLING_MOST_DEPTH = 64,          /* limits of a search: depth from 0 to this, */
    BARNSLING_MOST_POPS = 65535,        /* pops from 1 to this, */
    BARNSLING_MOST_FRINGE = 8192,       /* fringe from 1 to this */

    /* Entries that are enough for every grid. Less will do: width * height cells, one place more than cells, and as
       many fringe entries as the fringe limit. */
    BARNSLING_CELLS = 4096,          /* each table of a grid */
    BARNSLING_PLACES = 4097,         /* number, place, parent and cost of the working room */
    BARNSLING_FRINGE_ENTRIES = 8192, /* keys and idx of the working room */
    BARNSLING_OUT = 8194,            /* waypoints out, two numbers each */
    BARNSLING_PATH = 516098,         /* the path of every route that a search finds, two numbers each: 4,096 legs of at most 63 steps */
    BARNSLING_TEXT = 8192,           /* the longest map text, in bytes */
    BARNSLING_TEXT_ROOM = 82100      /* what barnsling_route_text wants for its answer, in bytes */
};

/* ---- Refusals -------------------------------------------------------------------------------------------------- */

/* Why a call was refused. A refused call has written nothing but working room. */
enum barnsling_refusal {
    BARNSLING_SIZE = 1,      /* a new grid with a bad width or height */
    BARNSLING_STATE = 2,     /* tables that are no grid: bad sides, a table too short, or a parent or rank that cannot be */
    BARNSLING_SETTING = 3,   /* a factor or limit out of range, or working room too short */
    BARNSLING_NO_ROUTE = 4,  /* the tables say that there is no way */
    BARNSLING_GOALS = 5,     /* no goal, more than 64, or an odd count of numbers */
    BARNSLING_EXHAUSTED = 6, /* all that the search reaches was searched, and no goal was met */
    BARNSLING_DEPTH = 7,     /* the search would nest deeper than the depth limit */
    BARNSLING_FRINGE = 8,    /* the search needs more entries than the fringe limit */
    BARNSLING_POPS = 9,      /* the search needs more steps than the pops limit */
    BARNSLING_ROOM = 10,     /* the answer is longer than the room for it */
    BARNSLING_SAME = 11,     /* a direction between equal points */
    BARNSLING_MAP = 12,      /* a map text that breaks its form */
    BARNSLING_LIST = 13,     /* a waypoint list that is empty or has an odd count of numbers */
    BARNSLING_POINT = 14     /* a coordinate out of range, or, where a cell is meant, a point outside the grid */
};

/* Most calls answer one uint64_t: the value, which is below 2^32, or a refusal in the upper half. */
#define BARNSLING_REFUSED(v) (((v) >> 32) != 0)             /* whether an answer is a refusal */
#define BARNSLING_REFUSAL(v) ((int)(((v) >> 32) & 255))     /* its number, as above; 0 where there is none */
/* Where POINT is refused by a call that takes two points: 1 for the first or the start, 2 for the second or the goal. Else 0. */
#define BARNSLING_WHICH_POINT(v) ((int)(((v) >> 40) & 3))

/* A refusal's name, for logs. */
static inline const char *barnsling_refusal_name(int refusal)
{
    static const char *const names[] = {
        "none", "SIZE", "STATE", "SETTING", "NO_ROUTE", "GOALS", "EXHAUSTED", "DEPTH",
        "FRINGE", "POPS", "ROOM", "SAME", "MAP", "LIST", "POINT"
    };
    return refusal < 0 || refusal > BARNSLING_POINT ? "unknown" : names[refusal];
}

/* ---- Masks, directions, distances: numbers alone ---------------------------------------------------------------- */

/* The forced mask of a neighbour mask. */
uint8_t barnsling_forced_mask(uint8_t neighbours);

/* The directions that a search follows from a cell with this neighbour mask, having come in a direction (read modulo 8). */
uint8_t barnsling_pruned_mask(uint8_t diagonal, uint8_t direction, uint8_t neighbours);

/* How b lies from a: 16 * length + 8 * bent + direction, which the three macros below take apart. Refuses POINT, SAME.
   The direction, 0 to 7, goes by the signs of the differences. Straight, bent 0: the two are in line, that is, one difference is 0 or both
   are equal in size, whatever a grid's diagonal flag is; length equal steps of the direction lead from a to b. Bent, bent 1: no number of
   equal steps leads there, and length is the larger difference. Either way length is how many steps the path from a to b takes.
   Up to version 3 the answer was the direction alone. A program that reads it by v & 7 still reads the direction; one that uses v itself,
   for an index say, has to take BARNSLING_DIRECTION(v). */
uint64_t barnsling_direction(int32_t ax, int32_t ay, int32_t bx, int32_t by);

/* The parts of its answer, all 0 where it is a refusal. */
#define BARNSLING_DIRECTION(v) ((int)((v) & 7))             /* 0 to 7 */
#define BARNSLING_BENT(v) ((int)(((v) >> 3) & 1))           /* 1 bent, 0 straight */
#define BARNSLING_LENGTH(v) ((int)(((v) >> 4) & 0xfffffff)) /* how many steps lead there */

/* The distance from a to b on an empty floor; a straight step costs 70, a diagonal one 99. Refuses POINT. */
uint64_t barnsling_distance(uint8_t diagonal, int32_t ax, int32_t ay, int32_t bx, int32_t by);

/* The distance times a factor, cut to a whole number. Refuses SETTING, POINT. */
uint64_t barnsling_scaled_distance(float factor, uint8_t diagonal, int32_t ax, int32_t ay, int32_t bx, int32_t by);

/* ---- Five tables that are a grid -------------------------------------------------------------------------------- */

/*
 * blocked     0 for a free cell, else blocked
 * neighbours  the neighbour mask: which neighbours are inside and free
 * forced      the forced mask
 * parent      the components, as a union-find: the cell's parent ...
 * rank        ... and its rank
 *
 * A grid has one more bit, the dirty mark: a free cell was blocked since the tables were built. You keep it. barnsling_set and
 * barnsling_update take it, and barnsling_set, barnsling_rebuild and barnsling_update answer what it is afterwards. On a grid that
 * is not dirty a yes is true, but for what GATES THAT REPEAT THEMSELVES says.
 */

/* A new grid: all cells free, each its own component, so rebuild before you ask. Answers 0, the dirty mark.
   Refuses SIZE, then STATE where a table is too short. */
uint64_t barnsling_new(
    uint8_t *blocked, size_t blocked_len, uint8_t *neighbours, size_t neighbours_len, uint8_t *forced, size_t forced_len,
    uint16_t *parent, size_t parent_len, uint8_t *rank, size_t rank_len, size_t width, size_t height);

/* Blocks (a flag) or frees the cell (x, y). Answers the dirty mark afterwards, 0 or 1. Refuses STATE, then POINT.
   A free cell that becomes blocked sets the mark; every other edit leaves it as it was passed, and joins the cell with its free
   neighbours, also one that blocks a blocked cell again: see GATES THAT REPEAT THEMSELVES.
   Stores to an entry of a table only where its value changes, and then to all of it; a new grid and a rebuild fill theirs. */
uint64_t barnsling_set(
    uint8_t *blocked, size_t blocked_len, uint8_t *neighbours, size_t neighbours_len, uint8_t *forced, size_t forced_len,
    uint16_t *parent, size_t parent_len, uint8_t *rank, size_t rank_len, size_t width, size_t height,
    uint8_t diagonal, uint8_t dirty, int32_t x, int32_t y, uint8_t block);

/* Builds the components anew from the blocked cells. Answers 0, the dirty mark afterwards. Refuses STATE. */
uint64_t barnsling_rebuild(
    const uint8_t *blocked, size_t blocked_len, uint16_t *parent, size_t parent_len, uint8_t *rank, size_t rank_len,
    size_t width, size_t height, uint8_t diagonal);

/* The same, but only if dirty: on a grid that is not, nothing is built and no false yes is healed. Answers 0, the dirty mark
   afterwards. Refuses STATE. */
uint64_t barnsling_update(
    const uint8_t *blocked, size_t blocked_len, uint16_t *parent, size_t parent_len, uint8_t *rank, size_t rank_len,
    size_t width, size_t height, uint8_t diagonal, uint8_t dirty);

/* ---- Questions: who can reach whom, from the tables, with no search --------------------------------------------- */

/* Whether the cell (x, y) is blocked: 1 or 0. Refuses STATE, then POINT. */
uint64_t barnsling_blocked_at(
    const uint8_t *blocked, size_t blocked_len, const uint16_t *parent, size_t parent_len,
    const uint8_t *rank, size_t rank_len, size_t width, size_t height, int32_t x, int32_t y);

/* The component of the cell (x, y), as a number below width * height. Refuses STATE, then POINT. */
uint64_t barnsling_component(
    const uint16_t *parent, size_t parent_len, const uint8_t *rank, size_t rank_len, size_t width, size_t height,
    int32_t x, int32_t y);

/* The four questions answer 0 (no) or 1 (yes), and refuse STATE, then POINT for a coordinate out of range, the start's first.
   A point that is in range but outside the grid is no refusal; each question says what it answers then. */

/* Can a cart get from the start to the goal? See THE RULE. Outside: no. */
uint64_t barnsling_reachable(
    const uint16_t *parent, size_t parent_len, const uint8_t *rank, size_t rank_len, size_t width, size_t height,
    int32_t start_x, int32_t start_y, int32_t goal_x, int32_t goal_y);

/* The opposite. Outside: yes. */
uint64_t barnsling_unreachable(
    const uint16_t *parent, size_t parent_len, const uint8_t *rank, size_t rank_len, size_t width, size_t height,
    int32_t start_x, int32_t start_y, int32_t goal_x, int32_t goal_y);

/* Can a cart get from the start to some neighbour of the goal? Outside: yes. */
uint64_t barnsling_neighbours_reachable(
    const uint16_t *parent, size_t parent_len, const uint8_t *rank, size_t rank_len, size_t width, size_t height,
    uint8_t diagonal, int32_t start_x, int32_t start_y, int32_t goal_x, int32_t goal_y);

/* To none of them? Outside: yes, too. */
uint64_t barnsling_neighbours_unreachable(
    const uint16_t *parent, size_t parent_len, const uint8_t *rank, size_t rank_len, size_t width, size_t height,
    uint8_t diagonal, int32_t start_x, int32_t start_y, int32_t goal_x, int32_t goal_y);

/* ---- Searches --------------------------------------------------------------------------------------------------- */

/*
 * What a search answers. Found: refusal is 0, and the first 2 * waypoints numbers of out are the waypoints, x and y in
 * turn, from the start; the rest of out is kept. Refused: waypoints and cost are 0, and out is as it was.
 */
struct barnsling_route {
    uint64_t refusal;   /* 0 found, else enum barnsling_refusal */
    uint64_t pops;      /* steps that the search took, 0 if refused before it began */
    uint64_t waypoints; /* points written to out */
    uint64_t cost;      /* the search's own count for the way; a walk along it may cost more */
    int32_t x, y;       /* the point that POINT or SAME is about, else 0 */
};

/*
 * The way from the start to the goal; with approximate, to a cell beside it.
 * number to idx are working room: what they hold before does not matter, and what they hold afterwards is of no use.
 * Refuses STATE, SETTING, POINT (start, then goal), NO_ROUTE where the tables say no, then EXHAUSTED, DEPTH, FRINGE,
 * POPS or SAME as the search meets them, and ROOM last. After a gate has shut, a hopeful yes may end in EXHAUSTED.
 */
struct barnsling_route barnsling_single_goal(
    const uint8_t *blocked, size_t blocked_len, const uint8_t *neighbours, size_t neighbours_len,
    const uint8_t *forced, size_t forced_len, const uint16_t *links, size_t links_len, const uint8_t *ranks, size_t ranks_len,
    uint32_t *number, size_t number_len, uint32_t *place, size_t place_len, uint32_t *parent, size_t parent_len,
    uint64_t *cost, size_t cost_len, uint64_t *keys, size_t keys_len, uint32_t *idx, size_t idx_len,
    int32_t *out, size_t out_len, size_t width, size_t height,
    float factor, uint8_t diagonal, uint8_t improved, size_t depth, size_t pops, size_t fringe,
    int32_t start_x, int32_t start_y, int32_t goal_x, int32_t goal_y, uint8_t approximate);

/*
 * The way to the one of several goals (x and y in turn) that the search meets first. It asks no tables, so a start
 * outside the grid may search. Refuses STATE, SETTING, GOALS, POINT (start, then goals), then as above, but never NO_ROUTE.
 */
struct barnsling_route barnsling_multiple_goals(
    const uint8_t *blocked, size_t blocked_len, const uint8_t *neighbours, size_t neighbours_len,
    const uint8_t *forced, size_t forced_len, const uint16_t *links, size_t links_len, const uint8_t *ranks, size_t ranks_len,
    const int32_t *goals, size_t goals_len,
    uint32_t *number, size_t number_len, uint32_t *place, size_t place_len, uint32_t *parent, size_t parent_len,
    uint64_t *cost, size_t cost_len, uint64_t *keys, size_t keys_len, uint32_t *idx, size_t idx_len,
    int32_t *out, size_t out_len, size_t width, size_t height,
    float factor, uint8_t diagonal, uint8_t improved, size_t depth, size_t pops, size_t fringe,
    int32_t start_x, int32_t start_y);

/* ---- Masks of a cell, paths, route checks, map texts ------------------------------------------------------------ */

/* The neighbour mask of the cell (x, y), read from its table. Refuses STATE, then POINT. */
uint64_t barnsling_neighbours_at(
    const uint8_t *neighbours, size_t neighbours_len, const uint16_t *parent, size_t parent_len,
    const uint8_t *rank, size_t rank_len, size_t width, size_t height, int32_t x, int32_t y);

/* Its forced mask. Refuses STATE, then POINT. */
uint64_t barnsling_forced_at(
    const uint8_t *forced, size_t forced_len, const uint16_t *parent, size_t parent_len,
    const uint8_t *rank, size_t rank_len, size_t width, size_t height, int32_t x, int32_t y);

/* Its pruned mask, having come in a direction (read modulo 8). Refuses STATE, then POINT. */
uint64_t barnsling_pruned_at(
    const uint8_t *neighbours, size_t neighbours_len, const uint16_t *parent, size_t parent_len,
    const uint8_t *rank, size_t rank_len, size_t width, size_t height,
    uint8_t diagonal, int32_t x, int32_t y, uint8_t direction);

/* What the expansion of a list answers. */
struct barnsling_reply {
    uint64_t refusal; /* 0, or enum barnsling_refusal */
    uint64_t value;   /* the points written; 0 where refused */
    int32_t x, y;     /* the point that POINT is about, else 0 */
};

/* Every cell on the way along a waypoint list, x and y in turn, written to out, whose rest is kept.
   Refuses LIST, POINT, ROOM. The grid is not looked at. */
struct barnsling_reply barnsling_waypoints_to_path(const int32_t *list, size_t list_len, int32_t *out, size_t out_len);

/* What a route check answers. Refused: clear and bent are 0. */
struct barnsling_check {
    uint64_t refusal; /* 0, or enum barnsling_refusal */
    uint64_t clear;   /* 1 clear, 0 not */
    uint64_t bent;    /* the first bent leg, from 1; 0 where no leg is bent */
    int32_t x, y;     /* the point that POINT is about, else 0 */
};

/* Whether the way along a waypoint list is clear now, and which leg of it is the first that bends. Refuses STATE, LIST, POINT.
   clear: every cell of its path (barnsling_waypoints_to_path) after the first point is inside and free. The first point may be blocked
   or outside; it is looked at only if the way comes back to it. The check needs no room, and walks no further than the first cell that
   is not free.
   bent: leg k goes from point k of the list to point k + 1, counted from 1, and is bent where the two are not in line
   (barnsling_direction). It is named whether or not the way is clear. A leg between equal points counts, and is not bent.
   Checking the path that was written says the same of clear, and names no leg (proved). */
struct barnsling_check barnsling_check_route(
    const uint8_t *blocked, size_t blocked_len, const uint16_t *parent, size_t parent_len,
    const uint8_t *rank, size_t rank_len, size_t width, size_t height, const int32_t *list, size_t list_len);

/* What the program `route` prints for a map text; a text that breaks its form gives the lines result=12 and line=n.
   Answers the bytes written. Refuses ROOM where out has fewer than BARNSLING_TEXT_ROOM bytes. */
uint64_t barnsling_route_text(const uint8_t *text, size_t text_len, uint8_t *out, size_t out_len);

/* ---- A grid in one struct --------------------------------------------------------------------------------------- */

/*
 * The same calls, with the tables, the dirty mark and the settings in one struct, and the working room in another.
 * Both are plain memory: make them static or allocate them as you like (about 25 kB and 213 kB).
 * Every wrapper answers what the call it wraps answers, and looks after the dirty mark. One does more, and says so: barnsling_grid_gate.
 */

struct barnsling_settings {
    float factor;                /* weight of the estimate: 1 as a rule */
    uint8_t diagonal;            /* eight ways, else four */
    uint8_t improved;            /* improved pruning: fewer pops */
    size_t depth, pops, fringe;  /* limits of a search */
};

struct barnsling_grid {
    size_t width, height;
    struct barnsling_settings settings; /* may be changed at any time; after a change of diagonal, rebuild */
    uint8_t dirty;                      /* a free cell was blocked since the tables were built */
    uint8_t blocked[BARNSLING_CELLS];
    uint8_t neighbours[BARNSLING_CELLS];
    uint8_t forced[BARNSLING_CELLS];
    uint16_t parent[BARNSLING_CELLS];
    uint8_t rank[BARNSLING_CELLS];
};

struct barnsling_rooms {
    uint64_t cost[BARNSLING_PLACES];
    uint64_t keys[BARNSLING_FRINGE_ENTRIES];
    uint32_t number[BARNSLING_PLACES];
    uint32_t place[BARNSLING_PLACES];
    uint32_t parent[BARNSLING_PLACES];
    uint32_t idx[BARNSLING_FRINGE_ENTRIES];
    int32_t out[BARNSLING_OUT]; /* the waypoints of the last search that found a way */
};

/* A new grid's settings: diagonals, improved pruning, factor 1, the largest limits. */
static inline struct barnsling_settings barnsling_new_settings(void)
{
    struct barnsling_settings s;
    s.factor = 1.0f;
    s.diagonal = 1;
    s.improved = 1;
    s.depth = BARNSLING_MOST_DEPTH;
    s.pops = BARNSLING_MOST_POPS;
    s.fringe = BARNSLING_MOST_FRINGE;
    return s;
}

/* A new grid, all free, with a new grid's settings. Refuses SIZE, and then writes nothing: a grid that was good stays as it was, and
   a struct of zeros is refused with STATE by every other call. */
static inline uint64_t barnsling_grid_new(struct barnsling_grid *g, size_t width, size_t height)
{
    uint64_t v = barnsling_new(
        g->blocked, BARNSLING_CELLS, g->neighbours, BARNSLING_CELLS, g->forced, BARNSLING_CELLS,
        g->parent, BARNSLING_CELLS, g->rank, BARNSLING_CELLS, width, height);
    if (!BARNSLING_REFUSED(v)) {
        g->width = width;
        g->height = height;
        g->settings = barnsling_new_settings();
        g->dirty = (uint8_t)v;
    }
    return v;
}

/* Blocks or frees a cell: a gate shuts or opens. Refuses POINT. An order that blocks a blocked cell can make a later yes false:
   see GATES THAT REPEAT THEMSELVES, and barnsling_grid_gate. */
static inline uint64_t barnsling_grid_set(struct barnsling_grid *g, int32_t x, int32_t y, int block)
{
    uint64_t v = barnsling_set(
        g->blocked, BARNSLING_CELLS, g->neighbours, BARNSLING_CELLS, g->forced, BARNSLING_CELLS,
        g->parent, BARNSLING_CELLS, g->rank, BARNSLING_CELLS, g->width, g->height,
        g->settings.diagonal, g->dirty, x, y, (uint8_t)(block != 0));
    if (!BARNSLING_REFUSED(v))
        g->dirty = (uint8_t)v;
    return v;
}

/* Whether a cell is blocked: 1 or 0. Refuses POINT. */
static inline uint64_t barnsling_grid_blocked_at(const struct barnsling_grid *g, int32_t x, int32_t y)
{
    return barnsling_blocked_at(
        g->blocked, BARNSLING_CELLS, g->parent, BARNSLING_CELLS, g->rank, BARNSLING_CELLS, g->width, g->height, x, y);
}

/* For a gate controller that may repeat itself: barnsling_grid_set, but a cell that is already as ordered is left alone. Answers
   the dirty mark. Where every gate is told so, a yes is true whenever the grid is not dirty, and after every update. Refuses POINT. */
static inline uint64_t barnsling_grid_gate(struct barnsling_grid *g, int32_t x, int32_t y, int block)
{
    uint64_t blocked = barnsling_grid_blocked_at(g, x, y);
    if (BARNSLING_REFUSED(blocked))
        return blocked;
    return (blocked != 0) == (block != 0) ? g->dirty : barnsling_grid_set(g, x, y, block);
}

/* Builds the components anew: afterwards yes and no are both true. */
static inline uint64_t barnsling_grid_rebuild(struct barnsling_grid *g)
{
    uint64_t v = barnsling_rebuild(
        g->blocked, BARNSLING_CELLS, g->parent, BARNSLING_CELLS, g->rank, BARNSLING_CELLS,
        g->width, g->height, g->settings.diagonal);
    if (!BARNSLING_REFUSED(v))
        g->dirty = (uint8_t)v;
    return v;
}

/* The same, but only if the grid is dirty; else it does nothing. */
static inline uint64_t barnsling_grid_update(struct barnsling_grid *g)
{
    uint64_t v = barnsling_update(
        g->blocked, BARNSLING_CELLS, g->parent, BARNSLING_CELLS, g->rank, BARNSLING_CELLS,
        g->width, g->height, g->settings.diagonal, g->dirty);
    if (!BARNSLING_REFUSED(v))
        g->dirty = (uint8_t)v;
    return v;
}

/* The component of a cell. Refuses POINT. */
static inline uint64_t barnsling_grid_component(const struct barnsling_grid *g, int32_t x, int32_t y)
{
    return barnsling_component(g->parent, BARNSLING_CELLS, g->rank, BARNSLING_CELLS, g->width, g->height, x, y);
}

/* Can a cart get there? 1 or 0. Refuses POINT. */
static inline uint64_t barnsling_grid_reachable(
    const struct barnsling_grid *g, int32_t start_x, int32_t start_y, int32_t goal_x, int32_t goal_y)
{
    return barnsling_reachable(
        g->parent, BARNSLING_CELLS, g->rank, BARNSLING_CELLS, g->width, g->height, start_x, start_y, goal_x, goal_y);
}

/* The opposite. */
static inline uint64_t barnsling_grid_unreachable(
    const struct barnsling_grid *g, int32_t start_x, int32_t start_y, int32_t goal_x, int32_t goal_y)
{
    return barnsling_unreachable(
        g->parent, BARNSLING_CELLS, g->rank, BARNSLING_CELLS, g->width, g->height, start_x, start_y, goal_x, goal_y);
}

/* Can it get beside there? */
static inline uint64_t barnsling_grid_neighbours_reachable(
    const struct barnsling_grid *g, int32_t start_x, int32_t start_y, int32_t goal_x, int32_t goal_y)
{
    return barnsling_neighbours_reachable(
        g->parent, BARNSLING_CELLS, g->rank, BARNSLING_CELLS, g->width, g->height,
        g->settings.diagonal, start_x, start_y, goal_x, goal_y);
}

/* Or not even that? */
static inline uint64_t barnsling_grid_neighbours_unreachable(
    const struct barnsling_grid *g, int32_t start_x, int32_t start_y, int32_t goal_x, int32_t goal_y)
{
    return barnsling_neighbours_unreachable(
        g->parent, BARNSLING_CELLS, g->rank, BARNSLING_CELLS, g->width, g->height,
        g->settings.diagonal, start_x, start_y, goal_x, goal_y);
}

/* The way to a goal; the waypoints are in rooms->out. */
static inline struct barnsling_route barnsling_grid_single_goal(
    const struct barnsling_grid *g, struct barnsling_rooms *rooms,
    int32_t start_x, int32_t start_y, int32_t goal_x, int32_t goal_y)
{
    return barnsling_single_goal(
        g->blocked, BARNSLING_CELLS, g->neighbours, BARNSLING_CELLS, g->forced, BARNSLING_CELLS,
        g->parent, BARNSLING_CELLS, g->rank, BARNSLING_CELLS,
        rooms->number, BARNSLING_PLACES, rooms->place, BARNSLING_PLACES, rooms->parent, BARNSLING_PLACES,
        rooms->cost, BARNSLING_PLACES, rooms->keys, BARNSLING_FRINGE_ENTRIES, rooms->idx, BARNSLING_FRINGE_ENTRIES,
        rooms->out, BARNSLING_OUT, g->width, g->height,
        g->settings.factor, g->settings.diagonal, g->settings.improved,
        g->settings.depth, g->settings.pops, g->settings.fringe, start_x, start_y, goal_x, goal_y, 0);
}

/* The way to a cell beside a goal, which may itself be blocked. */
static inline struct barnsling_route barnsling_grid_approximate_goal(
    const struct barnsling_grid *g, struct barnsling_rooms *rooms,
    int32_t start_x, int32_t start_y, int32_t goal_x, int32_t goal_y)
{
    return barnsling_single_goal(
        g->blocked, BARNSLING_CELLS, g->neighbours, BARNSLING_CELLS, g->forced, BARNSLING_CELLS,
        g->parent, BARNSLING_CELLS, g->rank, BARNSLING_CELLS,
        rooms->number, BARNSLING_PLACES, rooms->place, BARNSLING_PLACES, rooms->parent, BARNSLING_PLACES,
        rooms->cost, BARNSLING_PLACES, rooms->keys, BARNSLING_FRINGE_ENTRIES, rooms->idx, BARNSLING_FRINGE_ENTRIES,
        rooms->out, BARNSLING_OUT, g->width, g->height,
        g->settings.factor, g->settings.diagonal, g->settings.improved,
        g->settings.depth, g->settings.pops, g->settings.fringe, start_x, start_y, goal_x, goal_y, 1);
}

/* The way to one of several goals, x and y in turn. */
static inline struct barnsling_route barnsling_grid_multiple_goals(
    const struct barnsling_grid *g, struct barnsling_rooms *rooms,
    int32_t start_x, int32_t start_y, const int32_t *goals, size_t goals_len)
{
    return barnsling_multiple_goals(
        g->blocked, BARNSLING_CELLS, g->neighbours, BARNSLING_CELLS, g->forced, BARNSLING_CELLS,
        g->parent, BARNSLING_CELLS, g->rank, BARNSLING_CELLS, goals, goals_len,
        rooms->number, BARNSLING_PLACES, rooms->place, BARNSLING_PLACES, rooms->parent, BARNSLING_PLACES,
        rooms->cost, BARNSLING_PLACES, rooms->keys, BARNSLING_FRINGE_ENTRIES, rooms->idx, BARNSLING_FRINGE_ENTRIES,
        rooms->out, BARNSLING_OUT, g->width, g->height,
        g->settings.factor, g->settings.diagonal, g->settings.improved,
        g->settings.depth, g->settings.pops, g->settings.fringe, start_x, start_y);
}

/* The masks of a cell. Refuse POINT. */
static inline uint64_t barnsling_grid_neighbours_at(const struct barnsling_grid *g, int32_t x, int32_t y)
{
    return barnsling_neighbours_at(
        g->neighbours, BARNSLING_CELLS, g->parent, BARNSLING_CELLS, g->rank, BARNSLING_CELLS, g->width, g->height, x, y);
}

static inline uint64_t barnsling_grid_forced_at(const struct barnsling_grid *g, int32_t x, int32_t y)
{
    return barnsling_forced_at(
        g->forced, BARNSLING_CELLS, g->parent, BARNSLING_CELLS, g->rank, BARNSLING_CELLS, g->width, g->height, x, y);
}

static inline uint64_t barnsling_grid_pruned_at(const struct barnsling_grid *g, int32_t x, int32_t y, uint8_t direction)
{
    return barnsling_pruned_at(
        g->neighbours, BARNSLING_CELLS, g->parent, BARNSLING_CELLS, g->rank, BARNSLING_CELLS, g->width, g->height,
        g->settings.diagonal, x, y, direction);
}

/* Whether the way along a waypoint list is clear now, and its first bent leg. Refuses LIST, POINT. */
static inline struct barnsling_check barnsling_grid_check_route(
    const struct barnsling_grid *g, const int32_t *list, size_t list_len)
{
    return barnsling_check_route(
        g->blocked, BARNSLING_CELLS, g->parent, BARNSLING_CELLS, g->rank, BARNSLING_CELLS, g->width, g->height,
        list, list_len);
}

#ifdef __cplusplus
}
#endif

#endif
