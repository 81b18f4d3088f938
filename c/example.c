/*
 * A morning in a small glasshouse: two halls, a wall between them, and one gate. Run it by c/run.
 *
 * The program keeps one grid and one set of rooms, asks before it sends a cart, and prints what a dispatcher would read.
 */
#include "barnsling.h"
#include <stdio.h>
#include <string.h>

static const char *const floor_rows[] = {
    "....#....",
    ".#..#.##.",
    ".#.......", /* the gate is at (4,2) */
    ".#..#.##.",
    "....#....",
};
enum { WIDTH = 9, HEIGHT = 5, GATE_X = 4, GATE_Y = 2 };
enum { CART_X = 0, CART_Y = 4, BENCH_X = 8, BENCH_Y = 0 };

static struct barnsling_grid grid;
static struct barnsling_rooms rooms;

/* Says why a call was refused, and whether it was. */
static int refused(const char *what, uint64_t v)
{
    if (!BARNSLING_REFUSED(v))
        return 0;
    printf("%s: refused, %s (%d)", what, barnsling_refusal_name(BARNSLING_REFUSAL(v)), BARNSLING_REFUSAL(v));
    if (BARNSLING_WHICH_POINT(v) != 0)
        printf(", the %s", BARNSLING_WHICH_POINT(v) == 1 ? "start" : "goal");
    printf("\n");
    return 1;
}

/* The floor as text, with the points of a list marked: the first S, the last G, the others o. */
static void draw(const int32_t *list, size_t points)
{
    char rows[HEIGHT][WIDTH + 1];
    size_t i;
    int x, y;
    for (y = 0; y < HEIGHT; y++) {
        for (x = 0; x < WIDTH; x++)
            rows[y][x] = grid.blocked[y * WIDTH + x] ? '#' : '.';
        rows[y][WIDTH] = 0;
    }
    for (i = 0; i < points; i++)
        rows[list[2 * i + 1]][list[2 * i]] = i == 0 ? 'S' : i == points - 1 ? 'G' : 'o';
    for (y = 0; y < HEIGHT; y++)
        printf("    %s\n", rows[y]);
}

/* Can the cart get to the bench? A no is true. A yes is hopeful while the grid is dirty, and else true, since this program tells its
   gates by barnsling_grid_gate (a_repeated_order shows what it spares). */
static void ask(void)
{
    uint64_t v = barnsling_grid_reachable(&grid, CART_X, CART_Y, BENCH_X, BENCH_Y);
    if (refused("question", v))
        return;
    if (v == 0)
        printf("Can the cart get there? No, and that is true.\n");
    else if (grid.dirty)
        printf("Can the cart get there? Yes, hopefully: a gate has shut since the tables were built.\n");
    else
        printf("Can the cart get there? Yes, and that is true.\n");
}

static struct barnsling_route send_cart(void)
{
    struct barnsling_route r = barnsling_grid_single_goal(&grid, &rooms, CART_X, CART_Y, BENCH_X, BENCH_Y);
    if (r.refusal == BARNSLING_NO_ROUTE) {
        printf("Send the cart: the tables say that there is no way (NO_ROUTE, 4); no search was needed.\n");
    } else if (r.refusal == BARNSLING_EXHAUSTED) {
        printf("Send the cart: searched, and no way was found (EXHAUSTED, 6), after %d pops.\n", (int)r.pops);
    } else if (r.refusal != 0) {
        printf("Send the cart: refused, %s (%d)\n", barnsling_refusal_name((int)r.refusal), (int)r.refusal);
    } else {
        printf("Send the cart: %d waypoints, %d pops\n", (int)r.waypoints, (int)r.pops);
        draw(rooms.out, (size_t)r.waypoints);
    }
    return r;
}

static int build_the_floor(void)
{
    int x, y;
    if (refused("new", barnsling_grid_new(&grid, WIDTH, HEIGHT)))
        return 0;
    for (y = 0; y < HEIGHT; y++)
        for (x = 0; x < WIDTH; x++)
            if (floor_rows[y][x] == '#' && refused("set", barnsling_grid_set(&grid, x, y, 1)))
                return 0;
    return !refused("rebuild", barnsling_grid_rebuild(&grid));
}

/* The nearest of three potting tables, the first of them behind a wall of the second hall. */
static void nearest_table(void)
{
    static const int32_t tables[] = {8, 4, 5, 2, 0, 0};
    struct barnsling_route r = barnsling_grid_multiple_goals(&grid, &rooms, 3, 2, tables, 6);
    if (r.refusal == 0) {
        const int32_t *last = rooms.out + 2 * (r.waypoints - 1);
        printf("From (3,2), of the tables at (8,4), (5,2) and (0,0): the cart goes to (%d,%d).\n", (int)last[0], (int)last[1]);
    }
}

/* Whether the way along the waypoints is clear: every cell of it, between them too. */
static const char *clear(size_t numbers)
{
    return barnsling_grid_check_route(&grid, rooms.out, numbers).clear ? "clear" : "not clear";
}

/* The first leg that is not one straight line, so that the cart turns between two waypoints. */
static void first_bend(size_t numbers)
{
    size_t leg = (size_t)barnsling_grid_check_route(&grid, rooms.out, numbers).bent;
    if (leg == 0) {
        printf("No leg is bent.\n");
    } else {
        const int32_t *from = rooms.out + 2 * (leg - 1);
        printf("The first bent leg is leg %d, from (%d,%d) to (%d,%d).\n",
            (int)leg, (int)from[0], (int)from[1], (int)from[2], (int)from[3]);
    }
}

/* Every cell of the way, for the cart's own controller, and what the waypoints themselves are asked: whether the way is clear, and where
   it bends. */
static void walk(const struct barnsling_route *r)
{
    static int32_t path[BARNSLING_PATH];
    size_t numbers = 2 * (size_t)r->waypoints;
    struct barnsling_reply p = barnsling_waypoints_to_path(rooms.out, numbers, path, BARNSLING_PATH);
    if (p.refusal != 0)
        return;
    printf("The path has %d cells, and the way is %s.\n", (int)p.value, clear(numbers));
    draw(path, (size_t)p.value);
    first_bend(numbers);

    barnsling_grid_gate(&grid, GATE_X, GATE_Y, 1);
    printf("The gate shuts while the cart is under way: the way is %s.\n", clear(numbers));
    barnsling_grid_gate(&grid, GATE_X, GATE_Y, 0);
    barnsling_grid_gate(&grid, GATE_X - 1, GATE_Y, 1);
    printf("A bench stands at (%d,%d), between two waypoints: the way is %s.\n", GATE_X - 1, GATE_Y, clear(numbers));
    barnsling_grid_gate(&grid, GATE_X - 1, GATE_Y, 0);

    p = barnsling_waypoints_to_path(rooms.out, numbers, path, 4);
    printf("The path in room for 2 points: refused, %s (%d)\n", barnsling_refusal_name((int)p.refusal), (int)p.refusal);
}

/* What the tables say and what a search finds, while the gate is shut. */
static void told(const char *after)
{
    uint64_t v = barnsling_grid_reachable(&grid, CART_X, CART_Y, BENCH_X, BENCH_Y);
    struct barnsling_route r = barnsling_grid_single_goal(&grid, &rooms, CART_X, CART_Y, BENCH_X, BENCH_Y);
    printf("%s: the tables say %s, the grid is %s, a search ends with %s.\n", after, v ? "yes" : "no",
        grid.dirty ? "dirty" : "not dirty", barnsling_refusal_name((int)r.refusal));
}

/* A controller that says "shut" of a gate that is shut. A false yes comes of it, and an update does not heal it; barnsling_grid_gate
   asks first whether the cell is blocked. */
static void a_repeated_order(void)
{
    barnsling_grid_gate(&grid, GATE_X, GATE_Y, 1);
    barnsling_grid_rebuild(&grid);
    told("Shut, and rebuilt");
    barnsling_grid_gate(&grid, GATE_X, GATE_Y, 1);
    told("Shut again by barnsling_grid_gate");
    barnsling_grid_set(&grid, GATE_X, GATE_Y, 1);
    told("Shut again by barnsling_grid_set");
    barnsling_grid_update(&grid);
    told("Updated");
    barnsling_grid_rebuild(&grid);
    told("Rebuilt");
}

/* A whole map as text, as the program `route` reads it. */
static void route_a_text(const char *text)
{
    static uint8_t printed[BARNSLING_TEXT_ROOM];
    uint64_t v = barnsling_route_text((const uint8_t *)text, strlen(text), printed, sizeof printed);
    if (!refused("text", v))
        printf("%.*s", (int)v, (const char *)printed);
}

int main(void)
{
    struct barnsling_route r;

    if (barnsling_version() != BARNSLING_VERSION) {
        printf("the archive is of version %d, this program of version %d\n", (int)barnsling_version(), BARNSLING_VERSION);
        return 1;
    }
    if (!build_the_floor())
        return 1;
    printf("The floor, rebuilt at five:\n");
    draw(NULL, 0);
    ask();
    send_cart();
    nearest_table();

    printf("\nThe gate at (4,2) shuts.\n");
    refused("gate", barnsling_grid_gate(&grid, GATE_X, GATE_Y, 1));
    ask();
    send_cart();

    printf("\nUpdate.\n");
    refused("update", barnsling_grid_update(&grid));
    ask();
    send_cart();

    printf("\nThe gate opens.\n");
    refused("gate", barnsling_grid_gate(&grid, GATE_X, GATE_Y, 0));
    ask();
    r = send_cart();

    printf("\nOrders with a slip of the pen:\n");
    refused("gate (9,2)", barnsling_grid_gate(&grid, 9, 2, 1));
    refused("a new grid of 65 by 5", barnsling_grid_new(&grid, 65, 5));
    printf("the grid is still %d by %d\n", (int)grid.width, (int)grid.height);
    refused("from (0,4) to (8000,0)", barnsling_grid_reachable(&grid, CART_X, CART_Y, 8000, BENCH_Y));

    printf("\n");
    walk(&r);
    printf("\nA gate that is told to shut twice:\n");
    a_repeated_order();
    printf("\nA map as text:\n");
    route_a_text("width=3\nheight=1\ndiagonal=1\nstart=0,0\ngoal=2,0\nrow=...\n");
    printf("The same with a letter too many in its last line:\n");
    route_a_text("width=3\nheight=1\ndiagonal=1\nstart=0,0\ngoal=2,0\nrow=....\n");
    return 0;
}
