/* Case 5 of document 01 from C, with all six edits: two lanes side by side, one of them split alone, its halves parted, linked and merged
 * again, the other lane removed; then the same as jobs, one refused and one made. Every answer is compared with what document 01 says; the exit status is 0 if all are right. */
#include "voldrekka.h"

#include <stdio.h>
#include <stdlib.h>

/* ---- the host's memory: room for every map, so that 10 is given for a limit alone */

static uint64_t lanes[VOLDREKKA_LANES_LEN], boundaries[VOLDREKKA_BOUNDARIES_LEN], roads[VOLDREKKA_ROADS_LEN];
static uint64_t junctions[VOLDREKKA_JUNCTIONS_LEN], rules[VOLDREKKA_RULES_LEN], stop_lines[VOLDREKKA_STOP_LINES_LEN];
static uint64_t crosswalks[VOLDREKKA_CROSSWALKS_LEN];
static double coordinates[VOLDREKKA_COORDINATES_LEN];
static uint64_t created[VOLDREKKA_CREATED_LEN], modified[VOLDREKKA_MODIFIED_LEN], deleted[VOLDREKKA_DELETED_LEN];
static uint64_t warnings[VOLDREKKA_WARNINGS_LEN];

static voldrekka_map map = {
    {104},
    {lanes, VOLDREKKA_LANES_LEN}, {boundaries, VOLDREKKA_BOUNDARIES_LEN}, {roads, VOLDREKKA_ROADS_LEN},
    {junctions, VOLDREKKA_JUNCTIONS_LEN}, {rules, VOLDREKKA_RULES_LEN}, {stop_lines, VOLDREKKA_STOP_LINES_LEN},
    {crosswalks, VOLDREKKA_CROSSWALKS_LEN}, {coordinates, VOLDREKKA_COORDINATES_LEN}};

static const voldrekka_lists lists = {
    {created, VOLDREKKA_CREATED_LEN}, {modified, VOLDREKKA_MODIFIED_LEN}, {deleted, VOLDREKKA_DELETED_LEN},
    {warnings, VOLDREKKA_WARNINGS_LEN}};

/* ---- a second map, which a job leaves as the old one */

static uint64_t old_lanes[VOLDREKKA_LANES_LEN], old_boundaries[VOLDREKKA_BOUNDARIES_LEN], old_roads[VOLDREKKA_ROADS_LEN];
static uint64_t old_junctions[VOLDREKKA_JUNCTIONS_LEN], old_rules[VOLDREKKA_RULES_LEN], old_stop_lines[VOLDREKKA_STOP_LINES_LEN];
static uint64_t old_crosswalks[VOLDREKKA_CROSSWALKS_LEN];
static double old_coordinates[VOLDREKKA_COORDINATES_LEN];

static const voldrekka_map area = {
    {0},
    {old_lanes, VOLDREKKA_LANES_LEN}, {old_boundaries, VOLDREKKA_BOUNDARIES_LEN}, {old_roads, VOLDREKKA_ROADS_LEN},
    {old_junctions, VOLDREKKA_JUNCTIONS_LEN}, {old_rules, VOLDREKKA_RULES_LEN}, {old_stop_lines, VOLDREKKA_STOP_LINES_LEN},
    {old_crosswalks, VOLDREKKA_CROSSWALKS_LEN}, {old_coordinates, VOLDREKKA_COORDINATES_LEN}};

/* ---- rows are added in the order of their ids */

/* A thin solid boundary from (0, y, 0) to (10, y, 0). */
static void add_boundary(uint64_t id, double y)
{
    uint64_t row = boundaries[VOLDREKKA_ROW_COUNT]++;
    uint64_t *words = boundaries + voldrekka_row(row, VOLDREKKA_BOUNDARY_WORDS);
    double *points = coordinates + row * 2 * VOLDREKKA_POINT_FLOATS;
    words[VOLDREKKA_ROW_ID] = id;
    words[VOLDREKKA_BOUNDARY_KIND] = VOLDREKKA_BOUNDARY_SOLID_THIN;
    words[VOLDREKKA_BOUNDARY_START] = row * 2;
    words[VOLDREKKA_BOUNDARY_SIZE] = 2;
    points[1] = y;
    points[3] = 10.0;
    points[4] = y;
}

/* A one-way driving lane between two boundaries; static memory is 0, so that all else is absent or empty. */
static void add_lane(uint64_t id, uint64_t left, uint64_t right)
{
    uint64_t row = lanes[VOLDREKKA_ROW_COUNT]++;
    uint64_t *words = lanes + voldrekka_row(row, VOLDREKKA_LANE_WORDS);
    words[VOLDREKKA_ROW_ID] = id;
    words[VOLDREKKA_LANE_KIND] = VOLDREKKA_LANE_DRIVING;
    words[VOLDREKKA_LANE_LEFT] = left;
    words[VOLDREKKA_LANE_RIGHT] = right;
    words[VOLDREKKA_LANE_ONE_WAY] = 1;
}

/* ---- what a call answered, as text: pairs as kind and id, warnings as code and entity */

static const char *const kinds[] = {"lane", "boundary", "road", "junction", "stop line", "signal", "crosswalk", "rule"};

static int write_pairs(char *text, size_t room, const char *name, const uint64_t *pairs, uint64_t count)
{
    int n = snprintf(text, room, "%s", name);
    for (uint64_t i = 0; i < count; i++) {
        const uint64_t *pair = pairs + i * VOLDREKKA_PAIR_WORDS;
        n += snprintf(text + n, room - (size_t)n, " %s %llu", kinds[pair[0]], (unsigned long long)pair[1]);
    }
    return n;
}

static int write_warnings(char *text, size_t room, uint64_t count)
{
    int n = 0;
    for (uint64_t i = 0; i < count; i++) {
        const uint64_t *row = warnings + i * VOLDREKKA_WARNING_WORDS;
        n += snprintf(text + n, room - (size_t)n, " ! %llu %s %llu", (unsigned long long)row[VOLDREKKA_WARNING_CODE],
                      kinds[row[VOLDREKKA_WARNING_ENTITY_KIND]], (unsigned long long)row[VOLDREKKA_WARNING_ENTITY_ID]);
    }
    return n;
}

static void write_lists(char *text, size_t room, uint64_t n_created, uint64_t n_modified, uint64_t n_deleted, uint64_t n_warnings)
{
    int n = 0;
    n += write_pairs(text, room, "created", created, n_created);
    n += write_pairs(text + n, room - (size_t)n, ", modified", modified, n_modified);
    n += write_pairs(text + n, room - (size_t)n, ", deleted", deleted, n_deleted);
    write_warnings(text + n, room - (size_t)n, n_warnings);
}

static void write_answer(char *text, size_t room, voldrekka_answer a)
{
    if (a.number != VOLDREKKA_ACCEPTED)
        snprintf(text, room, "refused %llu, %s %llu", (unsigned long long)a.number, a.kind ? kinds[a.kind - 1] : "-", (unsigned long long)a.id);
    else
        write_lists(text, room, a.created, a.modified, a.deleted, a.warnings);
}

static void write_job_answer(char *text, size_t room, voldrekka_job_answer a)
{
    if (a.number != VOLDREKKA_MADE)
        snprintf(text, room, "refused %llu, edit %llu by %llu, %s %llu", (unsigned long long)a.number, (unsigned long long)a.place,
                 (unsigned long long)a.own, a.kind ? kinds[a.kind - 1] : "-", (unsigned long long)a.id);
    else
        write_lists(text, room, a.created, a.modified, a.deleted, a.warnings);
}

static void compare(const char *call, const char *text, const char *wanted)
{
    printf("%s: %s\n", call, text);
    if (strcmp(text, wanted) != 0 || !voldrekka_map_sound(&map)) {
        printf("  wanted: %s, and a sound map\n", wanted);
        exit(1);
    }
}

static void expect(const char *call, voldrekka_answer answer, const char *wanted)
{
    char text[512];
    write_answer(text, sizeof text, answer);
    compare(call, text, wanted);
}

static void expect_job(const char *call, voldrekka_job_answer answer, const char *wanted)
{
    char text[512];
    write_job_answer(text, sizeof text, answer);
    compare(call, text, wanted);
}

int main(void)
{
    if (!voldrekka_float_state()) {
        puts("the floating-point state is not the one assumed");
        return 1;
    }
    add_boundary(101, 2.0);
    add_boundary(102, -2.0);
    add_boundary(103, -6.0);
    add_lane(1, 101, 102);
    add_lane(2, 102, 103);

    expect("2 is right of 1", voldrekka_map_set_neighbor(&map, &lists, 1, VOLDREKKA_RIGHT, VOLDREKKA_NEIGHBOR_SAME, 2),
           "created, modified lane 1 lane 2, deleted");
    expect("split 1 at 0.05 m", voldrekka_map_split(&map, &lists, 1, VOLDREKKA_STATION, 0.05, false), "refused 3, lane 1");
    expect("split 1 alone in the middle", voldrekka_map_split(&map, &lists, 1, VOLDREKKA_FRACTION, 0.5, false),
           "created lane 107 boundary 104 boundary 105 boundary 106, modified lane 1 boundary 101, deleted ! 3 boundary 102 ! 4 lane 107");
    expect("disconnect 1 from 107", voldrekka_map_disconnect(&map, &lists, 1, 107), "created, modified lane 1 lane 107, deleted");
    expect("connect 1 to 107", voldrekka_map_connect(&map, &lists, 1, 107), "created, modified lane 1 lane 107, deleted");
    expect("merge 1 and 107", voldrekka_map_merge(&map, &lists, 1, 107),
           "created, modified lane 1 boundary 101 boundary 105, deleted lane 107 boundary 104 boundary 106");
    expect("remove 2", voldrekka_map_remove(&map, &lists, 2), "created, modified lane 1, deleted lane 2 boundary 102 boundary 103");

    /* Lane 1 is split again; its second half gets the next id behind its two boundaries. */
    const uint64_t second = map.counter.next + 2;
    const uint64_t commands[3][VOLDREKKA_COMMAND_WORDS] = {
        {VOLDREKKA_SPLIT, 1, VOLDREKKA_FRACTION, voldrekka_bits(0.25), 0}, {VOLDREKKA_DISCONNECT, 1, second, 0, 0}, {VOLDREKKA_REMOVE, 7, 0, 0, 0}};
    expect_job("split 1, disconnect its halves, remove 7", voldrekka_map_job(&map, commands[0], 3, &area, &lists), "refused 12, edit 3 by 1, lane 7");
    expect_job("the first two", voldrekka_map_job(&map, commands[0], 2, &area, &lists),
               "created lane 110 boundary 108 boundary 109, modified lane 1 boundary 101 boundary 105, deleted");
    printf("lanes of the map and of the old one: %llu %llu\n", (unsigned long long)lanes[VOLDREKKA_ROW_COUNT], (unsigned long long)old_lanes[VOLDREKKA_ROW_COUNT]);
    return lanes[VOLDREKKA_ROW_COUNT] == 2 && old_lanes[VOLDREKKA_ROW_COUNT] == 1 ? 0 : 1;
}
