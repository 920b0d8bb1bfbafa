/* How much stack each function takes: it runs on a painted stack, and what is left of the paint tells. On a small map, and on a large one
 * whose lines lie in no order, so that the edits that lay lines out must copy them. Fails if a function takes 256 KB on the small one, a job 1 MB, or one of them half of
 * VOLDREKKA_STACK on the large one. */
#define _XOPEN_SOURCE 700
#include "voldrekka.h"

#include <pthread.h>
#include <stdio.h>
#include <stdlib.h>

enum {
    PAINT = 0xA5,
    PAGE = 4096,
    SMALL = 100, FEW = 12,      /* lanes of the small map, each with two boundaries of its own, and points of a boundary */
    LARGE = 500, MANY = 64,     /* the same of the large one */
    SMALL_STACK = 256 * 1024,   /* more than any call takes on the small map */
    JOB_STACK = 1024 * 1024     /* and more than a job */
};

static uint64_t points;

static uint64_t lanes[VOLDREKKA_LANES_LEN], boundaries[VOLDREKKA_BOUNDARIES_LEN], roads[VOLDREKKA_ROADS_LEN];
static uint64_t junctions[VOLDREKKA_JUNCTIONS_LEN], rules[VOLDREKKA_RULES_LEN], stop_lines[VOLDREKKA_STOP_LINES_LEN];
static uint64_t crosswalks[VOLDREKKA_CROSSWALKS_LEN];
static double coordinates[VOLDREKKA_COORDINATES_LEN];
static uint64_t created[VOLDREKKA_CREATED_LEN], modified[VOLDREKKA_MODIFIED_LEN], deleted[VOLDREKKA_DELETED_LEN];
static uint64_t warnings[VOLDREKKA_WARNINGS_LEN];

static voldrekka_map map = {
    {10000},
    {lanes, VOLDREKKA_LANES_LEN}, {boundaries, VOLDREKKA_BOUNDARIES_LEN}, {roads, VOLDREKKA_ROADS_LEN},
    {junctions, VOLDREKKA_JUNCTIONS_LEN}, {rules, VOLDREKKA_RULES_LEN}, {stop_lines, VOLDREKKA_STOP_LINES_LEN},
    {crosswalks, VOLDREKKA_CROSSWALKS_LEN}, {coordinates, VOLDREKKA_COORDINATES_LEN}};

static const voldrekka_lists lists = {
    {created, VOLDREKKA_CREATED_LEN}, {modified, VOLDREKKA_MODIFIED_LEN}, {deleted, VOLDREKKA_DELETED_LEN},
    {warnings, VOLDREKKA_WARNINGS_LEN}};

static uint64_t old_lanes[VOLDREKKA_LANES_LEN], old_boundaries[VOLDREKKA_BOUNDARIES_LEN], old_roads[VOLDREKKA_ROADS_LEN];
static uint64_t old_junctions[VOLDREKKA_JUNCTIONS_LEN], old_rules[VOLDREKKA_RULES_LEN], old_stop_lines[VOLDREKKA_STOP_LINES_LEN];
static uint64_t old_crosswalks[VOLDREKKA_CROSSWALKS_LEN];
static double old_coordinates[VOLDREKKA_COORDINATES_LEN];

static const voldrekka_map area = {
    {0},
    {old_lanes, VOLDREKKA_LANES_LEN}, {old_boundaries, VOLDREKKA_BOUNDARIES_LEN}, {old_roads, VOLDREKKA_ROADS_LEN},
    {old_junctions, VOLDREKKA_JUNCTIONS_LEN}, {old_rules, VOLDREKKA_RULES_LEN}, {old_stop_lines, VOLDREKKA_STOP_LINES_LEN},
    {old_crosswalks, VOLDREKKA_CROSSWALKS_LEN}, {old_coordinates, VOLDREKKA_COORDINATES_LEN}};

/* The lists of a job may hold more than those of an edit. */
static uint64_t job_created[VOLDREKKA_JOB_CREATED_LEN], job_deleted[VOLDREKKA_JOB_DELETED_LEN];

static const voldrekka_lists job_lists = {
    {job_created, VOLDREKKA_JOB_CREATED_LEN}, {modified, VOLDREKKA_MODIFIED_LEN}, {job_deleted, VOLDREKKA_JOB_DELETED_LEN},
    {warnings, VOLDREKKA_WARNINGS_LEN}};

/* ---- maps: lanes 1, 2 .. in a row, each leading into the next, and the first two side by side; boundaries from 2000 on */

/* A boundary of a lane, from its start to its end; its points are stored behind those of all boundaries that follow it. */
static void make_boundary(uint64_t row, uint64_t count, double x, double y)
{
    uint64_t *words = boundaries + voldrekka_row(row, VOLDREKKA_BOUNDARY_WORDS);
    const uint64_t start = (count - 1 - row) * points;
    words[VOLDREKKA_ROW_ID] = 2000 + row;
    words[VOLDREKKA_BOUNDARY_KIND] = VOLDREKKA_BOUNDARY_SOLID_THIN;
    words[VOLDREKKA_BOUNDARY_START] = start;
    words[VOLDREKKA_BOUNDARY_SIZE] = points;
    for (uint64_t i = 0; i < points; i++) {
        double *point = coordinates + (start + i) * VOLDREKKA_POINT_FLOATS;
        point[0] = x + (double)i;
        point[1] = y;
    }
}

static void make_lane(uint64_t row, uint64_t count)
{
    uint64_t *words = lanes + voldrekka_row(row, VOLDREKKA_LANE_WORDS);
    words[VOLDREKKA_ROW_ID] = row + 1;
    words[VOLDREKKA_LANE_LEFT] = 2000 + 2 * row;
    words[VOLDREKKA_LANE_RIGHT] = 2001 + 2 * row;
    words[VOLDREKKA_LANE_ONE_WAY] = 1;
    words[VOLDREKKA_PREDECESSORS_AT] = row > 0;
    words[VOLDREKKA_FIRST_PREDECESSOR] = row;
    words[VOLDREKKA_SUCCESSORS_AT] = row + 1 < count;
    words[VOLDREKKA_FIRST_SUCCESSOR] = row + 2;
}

static void make_map(uint64_t count)
{
    memset(lanes, 0, sizeof lanes);
    memset(boundaries, 0, sizeof boundaries);
    memset(coordinates, 0, sizeof coordinates);
    map.counter.next = 10000;
    lanes[VOLDREKKA_ROW_COUNT] = count;
    boundaries[VOLDREKKA_ROW_COUNT] = 2 * count;
    for (uint64_t row = 0; row < count; row++) {
        const double x = (double)(row * (points - 1));
        make_boundary(2 * row, 2 * count, x, 2.0);
        make_boundary(2 * row + 1, 2 * count, x, -2.0);
        make_lane(row, count);
    }
}

/* ---- what is run */

static double line[256 * VOLDREKKA_POINT_FLOATS], pieces[2 * 257 * VOLDREKKA_POINT_FLOATS];
static size_t second_points;
static bool done;

static void nothing(void) { done = true; }
static void root(void) { done = voldrekka_sqrt(2.0) > 1.0; }
static void length(void) { done = voldrekka_length(line, 256 * VOLDREKKA_POINT_FLOATS) == 0.0; }
static void nearest(void) { done = voldrekka_nearest_point(line, 256 * VOLDREKKA_POINT_FLOATS, 1.0, 1.0, pieces, 5) == 0; }
static void split_at(void) { done = voldrekka_split_at(line, 256 * VOLDREKKA_POINT_FLOATS, 1.0, pieces, sizeof pieces / sizeof *pieces, &second_points) > 0; }
static void sound(void) { done = voldrekka_map_sound(&map); }
static void connect(void) { done = voldrekka_map_connect(&map, &lists, 1, 3).number == VOLDREKKA_ACCEPTED; }
static void disconnect(void) { done = voldrekka_map_disconnect(&map, &lists, 1, 2).number == VOLDREKKA_ACCEPTED; }
static void neighbor(void) { done = voldrekka_map_set_neighbor(&map, &lists, 1, VOLDREKKA_LEFT, VOLDREKKA_NEIGHBOR_SAME, 2).number == VOLDREKKA_ACCEPTED; }
static void removal(void) { done = voldrekka_map_remove(&map, &lists, 1).number == VOLDREKKA_ACCEPTED; }
static void merge(void) { done = voldrekka_map_merge(&map, &lists, 1, 2).number == VOLDREKKA_ACCEPTED; }
static void split(void) { done = voldrekka_map_split(&map, &lists, 1, VOLDREKKA_FRACTION, 0.5, true).number == VOLDREKKA_ACCEPTED; }


/* Each of the six edits, and no edit. */
static void job(void)
{
    static const uint64_t half = 0x3FE0000000000000; /* 0.5 */
    const uint64_t commands[6][VOLDREKKA_COMMAND_WORDS] = {
        {VOLDREKKA_SPLIT, 1, VOLDREKKA_FRACTION, half, 1}, {VOLDREKKA_MERGE, 5, 6, 0, 0}, {VOLDREKKA_CONNECT, 3, 8, 0, 0},
        {VOLDREKKA_DISCONNECT, 8, 9, 0, 0}, {VOLDREKKA_SET_NEIGHBOR, 10, VOLDREKKA_LEFT, VOLDREKKA_NEIGHBOR_SAME, 12}, {VOLDREKKA_REMOVE, 20, 0, 0, 0}};
    done = voldrekka_map_job(&map, commands[0], 6, &area, &job_lists).number == VOLDREKKA_MADE;
}

static void empty_job(void)
{
    const uint64_t none[1] = {0};
    done = voldrekka_map_job(&map, none, 0, &area, &job_lists).number == VOLDREKKA_MADE;
}

static const struct {
    const char *name;
    void (*run)(void);
    size_t most; /* on the small map */
} functions[] = {
    {"voldrekka_sqrt", root, SMALL_STACK},
    {"voldrekka_length", length, SMALL_STACK},
    {"voldrekka_nearest_point", nearest, SMALL_STACK},
    {"voldrekka_split_at", split_at, SMALL_STACK},
    {"voldrekka_sound", sound, SMALL_STACK},
    {"connect", connect, SMALL_STACK},
    {"disconnect", disconnect, SMALL_STACK},
    {"set neighbour", neighbor, SMALL_STACK},
    {"remove", removal, SMALL_STACK},
    {"merge", merge, SMALL_STACK},
    {"split", split, SMALL_STACK},
    {"a job without an edit", empty_job, JOB_STACK},
    {"a job of all six", job, JOB_STACK}};

/* ---- painted stacks */

static unsigned char *stack;

static void *run_on_stack(void *task)
{
    (*(void (**)(void))task)();
    return NULL;
}

/* Bytes of a painted stack that a thread touches which runs the task. */
static size_t touched(void (*task)(void))
{
    pthread_attr_t attributes;
    pthread_t thread;
    size_t left = 0;
    memset(stack, PAINT, VOLDREKKA_STACK);
    done = false;
    if (pthread_attr_init(&attributes) || pthread_attr_setstack(&attributes, stack, VOLDREKKA_STACK) ||
        pthread_create(&thread, &attributes, run_on_stack, &task) || pthread_join(thread, NULL) || !done) {
        puts("a thread could not run, or a call was not answered as it should be");
        exit(1);
    }
    pthread_attr_destroy(&attributes);
    while (stack[left] == PAINT)
        left++;
    return VOLDREKKA_STACK - left;
}

int main(void)
{
    static const struct {
        uint64_t lanes, points;
    } maps[] = {{SMALL, FEW}, {LARGE, MANY}};
    size_t own;
    int status = 0;
    if (posix_memalign((void **)&stack, PAGE, VOLDREKKA_STACK))
        return 1;
    own = touched(nothing);
    printf("bytes of stack, on maps of %d and of %d lanes\n", SMALL, LARGE);
    for (size_t i = 0; i < sizeof functions / sizeof *functions; i++) {
        size_t taken[2];
        for (size_t m = 0; m < 2; m++) {
            points = maps[m].points;
            make_map(maps[m].lanes);
            taken[m] = touched(functions[i].run) - own;
            status |= taken[m] >= (m == 0 ? functions[i].most : VOLDREKKA_STACK / 2);
        }
        printf("%-24s%10zu%10zu\n", functions[i].name, taken[0], taken[1]);
    }
    free(stack);
    return status;
}
