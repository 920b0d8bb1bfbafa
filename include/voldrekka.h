/* Voldrekka: the edit core of a lane map, proved. For C99 and C++; link libvoldrekka.a (`rt lib` in crates/voldrekka).
 *
 * The host owns a map: seven tables of 64-bit words and one slice of doubles, with the next id. It lends them to a call, which edits
 * them in place or refuses and leaves every lent word as it was. docs/HOST.md describes rows, limits and refusals at length;
 * what each function promises is proved of it for any contents of any lengths (crates/voldrekka).
 *
 * What a host must keep to. Nothing checks it:
 *
 *  - Floating-point state: round to nearest, no flush-to-zero, no denormals-are-zero. A program linked with -ffast-math sets the two
 *    last and gets wrong roots of subnormal numbers. voldrekka_float_state() tells.
 *  - Slices that one call may write overlap no other slice of that call. Pointers are aligned to 8 bytes and are never null, those of empty slices included.
 *  - During a call nobody else writes what is lent, or reads what the call may write. The library keeps no state of its own: calls on
 *    different maps may run at the same time, in any threads.
 *  - Stack: a call of voldrekka_apply or voldrekka_job wants VOLDREKKA_STACK bytes of the thread that makes it; voldrekka_sound takes 76 kilobytes, the
 *    functions on lines less than one. A thread that has less dies of it. host/c/stack.c measures each.
 *  - x86-64 Linux, System V calling convention.
 *
 * Nothing else is asked: whatever the slices hold, the answer is the one promised. */
#ifndef VOLDREKKA_H
#define VOLDREKKA_H

#include <stdbool.h>
#include <stddef.h>
#include <stdint.h>
#include <string.h>

#ifdef __cplusplus
extern "C" {
#endif

/* ---- limits: the most that a map holds */

enum {
    VOLDREKKA_MAX_LANES = 1024,
    VOLDREKKA_MAX_BOUNDARIES = 4096,
    VOLDREKKA_MAX_ROADS = 256,
    VOLDREKKA_MAX_JUNCTIONS = 256,
    VOLDREKKA_MAX_RULES = 512,
    VOLDREKKA_MAX_STOP_LINES = 512,
    VOLDREKKA_MAX_CROSSWALKS = 128,
    VOLDREKKA_MAX_LINE_POINTS = 256, /* of one line */
    VOLDREKKA_MAX_POINTS = 65536,    /* of all lines */
    VOLDREKKA_MAX_LINKS = 16,        /* of a lane, each way */
    VOLDREKKA_MAX_IDS = 64,          /* in any other list */
    VOLDREKKA_MAX_COORDINATE = 16777216, /* 2^24, either sign */
    VOLDREKKA_HANDLE_WIDTH = 65536,  /* handles of lanes, boundaries, roads, junctions and rules are below it */
    VOLDREKKA_FEATURE_HANDLE_WIDTH = 65536 /* handles of stop lines and crosswalks */
};

/* ---- tables: word VOLDREKKA_ROW_COUNT is the number of rows, then come the rows, ids ascending. Every row begins with its id. */

enum {
    VOLDREKKA_ROW_COUNT = 0,
    VOLDREKKA_ROW_ID = 0
};

/* Words of a row. */
enum {
    VOLDREKKA_LANE_WORDS = 52,
    VOLDREKKA_BOUNDARY_WORDS = 5,
    VOLDREKKA_ROAD_WORDS = 68,
    VOLDREKKA_JUNCTION_WORDS = 69,
    VOLDREKKA_RULE_WORDS = 330,
    VOLDREKKA_STOP_LINE_WORDS = 4,
    VOLDREKKA_CROSSWALK_WORDS = 7
};

/* The word at which row number `row` (from 0) of a table with rows of `words` words begins. */
static inline size_t voldrekka_row(size_t row, size_t words) { return 1 + row * words; }

/* A line is a start and a size, in points, into the coordinates: x, y, z of point 0, of point 1 and so on. What no line covers is free. */
enum { VOLDREKKA_POINT_FLOATS = 3 };

/* A lane. A mark is 0 or 1. Slots past a list's count, and what a mark of 0 says is absent, are not read. */
enum {
    VOLDREKKA_LANE_KIND = 1,              /* voldrekka_lane_kind */
    VOLDREKKA_LANE_LEFT = 2,              /* id of the left boundary */
    VOLDREKKA_LANE_LEFT_REVERSED = 3,     /* mark: the lane runs against it */
    VOLDREKKA_LANE_RIGHT = 4,
    VOLDREKKA_LANE_RIGHT_REVERSED = 5,
    VOLDREKKA_LANE_CENTERLINE = 6,        /* mark: it has a line of its own */
    VOLDREKKA_LANE_CENTERLINE_START = 7,
    VOLDREKKA_LANE_CENTERLINE_SIZE = 8,
    VOLDREKKA_LANE_SPEED = 9,             /* mark: it has a speed limit */
    VOLDREKKA_LANE_SPEED_BITS = 10,       /* bits of a double, km/h */
    VOLDREKKA_LANE_ONE_WAY = 11,          /* mark */
    VOLDREKKA_LANE_TURN = 12,             /* voldrekka_turn */
    VOLDREKKA_LANE_ATTRIBUTES = 13,       /* handle */
    VOLDREKKA_LEFT_SLOT = 14,             /* voldrekka_direction of the left neighbour */
    VOLDREKKA_LEFT_SLOT_LANE = 15,        /* its id */
    VOLDREKKA_RIGHT_SLOT = 16,
    VOLDREKKA_RIGHT_SLOT_LANE = 17,
    VOLDREKKA_PREDECESSORS_AT = 18,       /* how many, then their ids, ascending */
    VOLDREKKA_FIRST_PREDECESSOR = 19,
    VOLDREKKA_SUCCESSORS_AT = 35,
    VOLDREKKA_FIRST_SUCCESSOR = 36
};

enum {
    VOLDREKKA_BOUNDARY_KIND = 1,          /* voldrekka_boundary_kind */
    VOLDREKKA_BOUNDARY_START = 2,
    VOLDREKKA_BOUNDARY_SIZE = 3,
    VOLDREKKA_BOUNDARY_ATTRIBUTES = 4     /* handle */
};

enum {
    VOLDREKKA_ROAD_NAME = 1,              /* handle */
    VOLDREKKA_ROAD_ATTRIBUTES = 2,        /* handle */
    VOLDREKKA_ROAD_LANES_AT = 3,          /* how many, then their ids, none twice */
    VOLDREKKA_ROAD_FIRST_LANE = 4
};

enum {
    VOLDREKKA_JUNCTION_NAME = 1,          /* handle */
    VOLDREKKA_JUNCTION_OUTLINE = 2,       /* handle */
    VOLDREKKA_JUNCTION_ATTRIBUTES = 3,    /* handle */
    VOLDREKKA_JUNCTION_LANES_AT = 4,      /* how many, then their ids, none twice */
    VOLDREKKA_JUNCTION_FIRST_LANE = 5
};

/* A rule. Each of its five lists is a count and its ids; no lane stands twice in one list. Priority and yielding are read of a right of
 * way alone, the crosswalk of a crosswalk rule alone, the stop lines of every rule but one of another kind. */
enum {
    VOLDREKKA_RULE_KIND = 1,              /* voldrekka_rule_kind */
    VOLDREKKA_RULE_CONTENT = 2,           /* handle of signals, sign data or other kind */
    VOLDREKKA_RULE_ATTRIBUTES = 3,        /* handle */
    VOLDREKKA_RULE_CROSSWALK = 4,
    VOLDREKKA_RULE_LANES_AT = 5,
    VOLDREKKA_RULE_FIRST_LANE = 6,
    VOLDREKKA_RULE_CONTROLLED_AT = 70,    /* crosswalks that it controls */
    VOLDREKKA_RULE_FIRST_CONTROLLED = 71,
    VOLDREKKA_RULE_STOP_LINES_AT = 135,
    VOLDREKKA_RULE_PRIORITY_AT = 200,
    VOLDREKKA_RULE_YIELDING_AT = 265
};

enum {
    VOLDREKKA_STOP_LINE_START = 1,
    VOLDREKKA_STOP_LINE_SIZE = 2,
    VOLDREKKA_STOP_LINE_ATTRIBUTES = 3    /* handle */
};

enum {
    VOLDREKKA_CROSSWALK_LEFT_START = 1,
    VOLDREKKA_CROSSWALK_LEFT_SIZE = 2,
    VOLDREKKA_CROSSWALK_RIGHT_START = 3,
    VOLDREKKA_CROSSWALK_RIGHT_SIZE = 4,
    VOLDREKKA_CROSSWALK_OUTLINE = 5,      /* handle */
    VOLDREKKA_CROSSWALK_ATTRIBUTES = 6    /* handle */
};

/* ---- kinds */

enum voldrekka_lane_kind {
    VOLDREKKA_LANE_DRIVING = 0,
    VOLDREKKA_LANE_SHOULDER = 1,
    VOLDREKKA_LANE_BUS = 2,
    VOLDREKKA_LANE_BICYCLE = 3,
    VOLDREKKA_LANE_WALKWAY = 4,
    VOLDREKKA_LANE_PARKING = 5,
    VOLDREKKA_LANE_EMERGENCY = 6,
    VOLDREKKA_LANE_OTHER = 7,
    VOLDREKKA_LAST_LANE_KIND = 7
};

enum voldrekka_turn {
    VOLDREKKA_TURN_NONE = 0,
    VOLDREKKA_TURN_STRAIGHT = 1,
    VOLDREKKA_TURN_LEFT = 2,
    VOLDREKKA_TURN_RIGHT = 3,
    VOLDREKKA_LAST_TURN = 3
};

/* What a neighbour's slot holds. */
enum voldrekka_direction {
    VOLDREKKA_NEIGHBOR_NONE = 0,
    VOLDREKKA_NEIGHBOR_SAME = 1,
    VOLDREKKA_NEIGHBOR_OPPOSITE = 2
};

enum voldrekka_boundary_kind {
    VOLDREKKA_BOUNDARY_VIRTUAL = 0,
    VOLDREKKA_BOUNDARY_SOLID_THIN = 1,
    VOLDREKKA_BOUNDARY_SOLID_THICK = 2,
    VOLDREKKA_BOUNDARY_DASHED_THIN = 3,
    VOLDREKKA_BOUNDARY_DASHED_THICK = 4,
    VOLDREKKA_BOUNDARY_SOLID_SOLID_THIN = 5,
    VOLDREKKA_BOUNDARY_SOLID_SOLID_THICK = 6,
    VOLDREKKA_BOUNDARY_SOLID_DASHED_THIN = 7,
    VOLDREKKA_BOUNDARY_SOLID_DASHED_THICK = 8,
    VOLDREKKA_BOUNDARY_DASHED_SOLID_THIN = 9,
    VOLDREKKA_BOUNDARY_DASHED_SOLID_THICK = 10,
    VOLDREKKA_BOUNDARY_CURB = 11,
    VOLDREKKA_BOUNDARY_ROAD_EDGE = 12,
    VOLDREKKA_BOUNDARY_OTHER = 13,
    VOLDREKKA_LAST_BOUNDARY_KIND = 13
};

enum voldrekka_rule_kind {
    VOLDREKKA_TRAFFIC_LIGHT = 0,          /* at most one stop line */
    VOLDREKKA_TRAFFIC_SIGN = 1,           /* at most one stop line */
    VOLDREKKA_STOP_LINE_RULE = 2,         /* exactly one stop line */
    VOLDREKKA_RIGHT_OF_WAY = 3,
    VOLDREKKA_CROSSWALK_RULE = 4,
    VOLDREKKA_OTHER_RULE = 5,             /* no stop line */
    VOLDREKKA_LAST_RULE_KIND = 5
};

enum voldrekka_entity_kind {
    VOLDREKKA_ENTITY_LANE = 0,
    VOLDREKKA_ENTITY_BOUNDARY = 1,
    VOLDREKKA_ENTITY_ROAD = 2,
    VOLDREKKA_ENTITY_JUNCTION = 3,
    VOLDREKKA_ENTITY_STOP_LINE = 4,
    VOLDREKKA_ENTITY_SIGNAL = 5,          /* no table here: named by handles */
    VOLDREKKA_ENTITY_CROSSWALK = 6,
    VOLDREKKA_ENTITY_RULE = 7
};

/* ---- commands: a row of words. Every row is a command: a word that is missing is 0, and words past the fifth are not read. */

enum voldrekka_command {
    VOLDREKKA_SPLIT = 0,        /* lane, kind of place (0 a fraction, any other number a station), bits of the double, 0 for the lane alone or any other number with its neighbours */
    VOLDREKKA_MERGE = 1,        /* first, second */
    VOLDREKKA_CONNECT = 2,      /* from, to */
    VOLDREKKA_DISCONNECT = 3,   /* from, to */
    VOLDREKKA_SET_NEIGHBOR = 4, /* lane, side (0 left, any other number right), direction (0 none, 1 same, any other number opposite), the other lane */
    VOLDREKKA_REMOVE = 5        /* lane; so is every number above 5 */
};

enum { VOLDREKKA_COMMAND_WORDS = 5 };

/* A job is up to so many commands, one row behind the other. */
enum { VOLDREKKA_MAX_EDITS = 64 };

enum voldrekka_place {
    VOLDREKKA_FRACTION = 0, /* of the length, inside (0, 1) */
    VOLDREKKA_STATION = 1   /* metres from the start */
};

enum voldrekka_side {
    VOLDREKKA_LEFT = 0, /* along the direction of travel */
    VOLDREKKA_RIGHT = 1
};

/* ---- answers */

/* Who can mend it: 1 to 5, 12 and 13 the editor at the desk, 6 to 9 who drew the map, 10 and 11 who lends memory. 12 and 13 are a job's alone. */
enum voldrekka_refusal {
    VOLDREKKA_MADE = 0,              /* of a job */
    VOLDREKKA_ACCEPTED = 0,          /* also where nothing was to be done: a no_op changes nothing and is warned of */
    VOLDREKKA_LANE_ABSENT = 1,       /* names the absent lane */
    VOLDREKKA_FRACTION_OUTSIDE = 2,  /* not inside (0, 1) */
    VOLDREKKA_POSITION_OUTSIDE = 3,  /* less than 0.1 m on a side: names the lane, or the neighbour that fails */
    VOLDREKKA_OWN_PARTNER = 4,       /* a lane as its own successor or neighbour: names it */
    VOLDREKKA_NOT_MERGEABLE = 5,     /* names the first lane */
    VOLDREKKA_BOUNDARY_ABSENT = 6,   /* names the absent boundary */
    VOLDREKKA_NO_USABLE_LINE = 7,    /* names the lane */
    VOLDREKKA_NOT_CROSSING = 8,      /* a boundary that is empty or does not cross the split: names it */
    VOLDREKKA_UNSOUND = 9,           /* the map is not sound */
    VOLDREKKA_NO_ROOM = 10,          /* the finished result passes a limit or a lent length */
    VOLDREKKA_NO_IDS = 11,           /* the counter plus the ids needed passes 2^64 - 1 */
    VOLDREKKA_EDIT_REFUSED = 12,     /* an edit of a job: its place, its own number and the entity that it names */
    VOLDREKKA_TOO_MANY_EDITS = 13    /* more than VOLDREKKA_MAX_EDITS in a job */
};

enum voldrekka_severity {
    VOLDREKKA_SEVERITY_INFO = 0,
    VOLDREKKA_SEVERITY_WARNING = 1,
    VOLDREKKA_SEVERITY_ERROR = 2 /* raised by none of the six edits */
};

/* The codes that the six edits raise. */
enum voldrekka_code {
    VOLDREKKA_CODE_NO_OP = 1,
    VOLDREKKA_CODE_GEOMETRIC_GAP = 2,
    VOLDREKKA_CODE_BOUNDARY_UNSHARED = 3,
    VOLDREKKA_CODE_NEIGHBOR_DROPPED = 4,
    VOLDREKKA_CODE_ORPHAN_RULE = 5,
    VOLDREKKA_CODE_ATTRIBUTE_CONFLICT = 8
};

/* created, modified and deleted are pairs of a kind and an id, by kind and then by id. */
enum { VOLDREKKA_PAIR_WORDS = 2 };

/* A warning. Related entities past their count are not written. */
enum {
    VOLDREKKA_WARNING_SEVERITY = 0,
    VOLDREKKA_WARNING_CODE = 1,
    VOLDREKKA_WARNING_ENTITY_KIND = 2,
    VOLDREKKA_WARNING_ENTITY_ID = 3,
    VOLDREKKA_WARNING_RELATED_AT = 4,     /* how many, then at most two pairs */
    VOLDREKKA_WARNING_FIRST_RELATED = 5,
    VOLDREKKA_WARNING_FIX = 9,            /* mark: removing the entity mends it */
    VOLDREKKA_WARNING_WORDS = 10
};

/* The next id. 0 counts as 1; at 2^64 - 1 none is left. */
typedef struct voldrekka_counter {
    uint64_t next;
} voldrekka_counter;

/* The answer to a command. */
typedef struct voldrekka_answer {
    uint64_t number;   /* voldrekka_refusal; 0 says accepted */
    uint64_t kind;     /* the refusal's entity: voldrekka_entity_kind + 1, or 0 for none */
    uint64_t id;       /* its id, or 0 */
    uint64_t created;  /* how many pairs and warnings were written; 0 in a refusal */
    uint64_t modified;
    uint64_t deleted;
    uint64_t warnings;
    uint64_t second;   /* the second half of the lane that was split, or 0 */
    uint64_t counter;  /* the next id, as the counter has it after the call */
} voldrekka_answer;

/* The answer to a job. */
typedef struct voldrekka_job_answer {
    uint64_t number;   /* 0 says made; else 13, 9, 10 or 12 of voldrekka_refusal */
    uint64_t place;    /* of 12: the place of the refused edit, from 1; else 0 */
    uint64_t own;      /* of 12: that edit's own number, 1 to 8, 10 or 11; else 0 */
    uint64_t kind;     /* of 12: the entity that it names, voldrekka_entity_kind + 1; 0 for none */
    uint64_t id;       /* its id, or 0 */
    uint64_t created;  /* how many pairs and warnings were written; 0 in a refusal */
    uint64_t modified;
    uint64_t deleted;
    uint64_t warnings;
    uint64_t counter;  /* the next id, as the counter has it after the call */
} voldrekka_job_answer;

/* The clauses of soundness, in the order in which they are told: the first of them that fails, in it the first table, in that the first row.
   A lane that stands twice came last among the numbers, so that the others keep theirs. */
enum voldrekka_clause {
    VOLDREKKA_CLAUSE_SOUND = 0,
    VOLDREKKA_CLAUSE_COUNT = 1,     /* a table has more rows than its limit or than its memory holds */
    VOLDREKKA_CLAUSE_MARK = 2,      /* a mark is out of range, or a list of the row is longer than its limit */
    VOLDREKKA_CLAUSE_KIND = 3,      /* a kind or a handle is out of range, or a rule has other stop lines than its kind */
    VOLDREKKA_CLAUSE_ORDER = 4,     /* ids do not ascend in their table */
    VOLDREKKA_CLAUSE_COUNTER = 5,   /* an id is not below the next id to be given */
    VOLDREKKA_CLAUSE_LINKS = 6,     /* a list of links does not ascend */
    VOLDREKKA_CLAUSE_LINE = 7,      /* a line is not stored, has more than 256 points, or leaves the range of coordinates */
    VOLDREKKA_CLAUSE_REPEAT = 11,   /* a lane stands twice in a road, a junction, or one list of a rule */
    VOLDREKKA_CLAUSE_POINT = 8,     /* two lines share a stored point; told of the coordinates as a whole */
    VOLDREKKA_CLAUSE_LINK = 9,      /* a link names a lane that is absent or does not name it back */
    VOLDREKKA_CLAUSE_NEIGHBOR = 10  /* a neighbour is absent or does not name the lane back */
};

/* Why a map is not sound. */
typedef struct voldrekka_flaw {
    uint64_t clause; /* 0 sound, else the clause of soundness that fails first (enum voldrekka_clause) */
    uint64_t table;  /* where: 0 lanes, 1 boundaries, 2 roads, 3 junctions, 4 rules, 5 stop lines, 6 crosswalks, 7 coordinates */
    uint64_t row;    /* at which row, from 0 */
} voldrekka_flaw;

/* ---- room: lengths of slices with which 10 is given for a limit above alone, never for what was lent */

enum {
    /* A count and every row that a map may have. */
    VOLDREKKA_LANES_LEN = 1 + (int)VOLDREKKA_MAX_LANES * VOLDREKKA_LANE_WORDS,
    VOLDREKKA_BOUNDARIES_LEN = 1 + (int)VOLDREKKA_MAX_BOUNDARIES * VOLDREKKA_BOUNDARY_WORDS,
    VOLDREKKA_ROADS_LEN = 1 + (int)VOLDREKKA_MAX_ROADS * VOLDREKKA_ROAD_WORDS,
    VOLDREKKA_JUNCTIONS_LEN = 1 + (int)VOLDREKKA_MAX_JUNCTIONS * VOLDREKKA_JUNCTION_WORDS,
    VOLDREKKA_RULES_LEN = 1 + (int)VOLDREKKA_MAX_RULES * VOLDREKKA_RULE_WORDS,
    VOLDREKKA_STOP_LINES_LEN = 1 + (int)VOLDREKKA_MAX_STOP_LINES * VOLDREKKA_STOP_LINE_WORDS,
    VOLDREKKA_CROSSWALKS_LEN = 1 + (int)VOLDREKKA_MAX_CROSSWALKS * VOLDREKKA_CROSSWALK_WORDS,
    VOLDREKKA_COORDINATES_LEN = (int)VOLDREKKA_MAX_POINTS * VOLDREKKA_POINT_FLOATS,
    /* A split cuts at most 512 lanes, since each gains a second half and 1,024 are the most; they have at most 1,024 boundaries, of two new pieces each. */
    VOLDREKKA_MAX_CREATED = VOLDREKKA_MAX_LANES / 2 + 2 * VOLDREKKA_MAX_LANES,
    /* Every lane, boundary, road, junction and rule once: nothing else is ever modified. */
    VOLDREKKA_MAX_MODIFIED = VOLDREKKA_MAX_LANES + VOLDREKKA_MAX_BOUNDARIES + VOLDREKKA_MAX_ROADS + VOLDREKKA_MAX_JUNCTIONS + VOLDREKKA_MAX_RULES,
    /* A merge deletes a lane and at most the four boundaries that the two lanes named. */
    VOLDREKKA_MAX_DELETED = 5,
    /* A split warns at most once of each boundary that it cuts (1,024) and once of each neighbour of a lane that it cuts (2 of 512). */
    VOLDREKKA_MAX_WARNINGS = 2 * VOLDREKKA_MAX_LANES,
    /* Of a job: new lanes and boundaries are at most all that the new map holds, */
    VOLDREKKA_MAX_JOB_CREATED = VOLDREKKA_MAX_LANES + VOLDREKKA_MAX_BOUNDARIES,
    /* what is gone are lanes and boundaries of the old one, */
    VOLDREKKA_MAX_JOB_DELETED = VOLDREKKA_MAX_LANES + VOLDREKKA_MAX_BOUNDARIES,
    /* and each of its edits warns as an edit alone. */
    VOLDREKKA_MAX_JOB_WARNINGS = (int)VOLDREKKA_MAX_EDITS * VOLDREKKA_MAX_WARNINGS,
    VOLDREKKA_CREATED_LEN = (int)VOLDREKKA_MAX_CREATED * VOLDREKKA_PAIR_WORDS,
    VOLDREKKA_MODIFIED_LEN = (int)VOLDREKKA_MAX_MODIFIED * VOLDREKKA_PAIR_WORDS,
    VOLDREKKA_DELETED_LEN = (int)VOLDREKKA_MAX_DELETED * VOLDREKKA_PAIR_WORDS,
    VOLDREKKA_WARNINGS_LEN = (int)VOLDREKKA_MAX_WARNINGS * VOLDREKKA_WARNING_WORDS,
    VOLDREKKA_JOB_CREATED_LEN = (int)VOLDREKKA_MAX_JOB_CREATED * VOLDREKKA_PAIR_WORDS,
    VOLDREKKA_JOB_DELETED_LEN = (int)VOLDREKKA_MAX_JOB_DELETED * VOLDREKKA_PAIR_WORDS,
    VOLDREKKA_JOB_WARNINGS_LEN = (int)VOLDREKKA_MAX_JOB_WARNINGS * VOLDREKKA_WARNING_WORDS
};

/* Stack to have free at a call of voldrekka_apply or voldrekka_job: what it takes at most (README, "Stack"), and as much again. */
enum { VOLDREKKA_STACK = 8 * 1024 * 1024 };

/* ---- the library's functions. A slice is a pointer and a length. */

/* The IEEE 754-2019 square root of any double: the double nearest the exact root, ties to even. */
double voldrekka_sqrt(double x);

/* The length of a line of line_len / 3 points, three coordinates each. */
double voldrekka_length(const double *line, size_t line_len);

/* The point of a line nearest (x, y) in the plane: writes its x, y, z, its distance in the plane and its station to the first five
 * places of `out`, and returns the segment, from 0. Of a line without a point, and where `out` has less than five places, it writes
 * nothing and returns 0. */
size_t voldrekka_nearest_point(const double *line, size_t line_len, double x, double y, double *out, size_t out_len);

/* Cuts a line at a station: writes the first piece to `out`, the second behind it, returns how many points the first has, and sets
 * `second` to how many the second has. Without room for both it returns 0, and `out` and `second` stay as they were. Each
 * piece has at most one point more than the line. */
size_t voldrekka_split_at(const double *line, size_t line_len, double station, double *out, size_t out_len, size_t *second);

/* Whether the map that is lent is sound (docs/HOST.md). Writes nothing. */
bool voldrekka_sound(uint64_t counter,
                     const uint64_t *lanes, size_t lanes_len,
                     const uint64_t *boundaries, size_t boundaries_len,
                     const uint64_t *roads, size_t roads_len,
                     const uint64_t *junctions, size_t junctions_len,
                     const uint64_t *rules, size_t rules_len,
                     const uint64_t *stop_lines, size_t stop_lines_len,
                     const uint64_t *crosswalks, size_t crosswalks_len,
                     const double *coordinates, size_t coordinates_len);

/* Which clause of soundness fails first of the map that is lent, and where; clause 0 where voldrekka_sound holds. Writes nothing. */
voldrekka_flaw voldrekka_fault(uint64_t counter,
                               const uint64_t *lanes, size_t lanes_len,
                               const uint64_t *boundaries, size_t boundaries_len,
                               const uint64_t *roads, size_t roads_len,
                               const uint64_t *junctions, size_t junctions_len,
                               const uint64_t *rules, size_t rules_len,
                               const uint64_t *stop_lines, size_t stop_lines_len,
                               const uint64_t *crosswalks, size_t crosswalks_len,
                               const double *coordinates, size_t coordinates_len);

/* Makes a command on the map that is lent, or refuses it. Accepted: tables and coordinates hold the edited map, a sound one; the lists
 * hold what was created, modified and deleted and the warnings, as many as the answer says; what lies past them in their slices, and
 * what the map does not use, is as it was; the counter has moved on, last of all. Refused: nothing that was lent has changed, the counter neither. A map that is not sound is refused before all else. */
voldrekka_answer voldrekka_apply(voldrekka_counter *counter,
                                 uint64_t *lanes, size_t lanes_len,
                                 uint64_t *boundaries, size_t boundaries_len,
                                 uint64_t *roads, size_t roads_len,
                                 uint64_t *junctions, size_t junctions_len,
                                 uint64_t *rules, size_t rules_len,
                                 uint64_t *stop_lines, size_t stop_lines_len,
                                 uint64_t *crosswalks, size_t crosswalks_len,
                                 double *coordinates, size_t coordinates_len,
                                 const uint64_t *command, size_t command_len,
                                 uint64_t *created, size_t created_len,
                                 uint64_t *modified, size_t modified_len,
                                 uint64_t *deleted, size_t deleted_len,
                                 uint64_t *warnings, size_t warnings_len);

/* Makes a job on the map that is lent: up to VOLDREKKA_MAX_EDITS commands, each on the map that the last one left; either all of them, or none. Every slice of
 * words is a job: a row of VOLDREKKA_COMMAND_WORDS words a command, as many commands as there are rows, and a last row that is cut short has zeros behind
 * it. Every row is a command; one of an unknown kind removes a lane. A job without a command is made, and changes nothing.
 *
 * Refused, in this order: 13 for more commands, before all else; 9 for a map that is not sound; 10 for an area of which a slice is shorter than the map's; 12 for
 * the first command that is refused, with its place, its own number and entity (10 within a job is for the map alone, whatever the lists);
 * 10 for a list or the warnings too long for their slice, at the end.
 *
 * Made: tables and coordinates hold the edited map, a sound one; created and deleted tell the map after the last command from the one before the first,
 * modified holds what is in both and some command lists as modified; the warnings of all commands follow one another. What a command creates and another
 * deletes is in no list. What lies past an answer in its slice, and what the map does not use, is as it was; the counter has moved on, last of all.
 *
 * The area, the slices whose names begin with old_, is the host's second map. Once it is long enough, after 13, 9 and its own 10, it begins with the map's slices as they came,
 * made or refused; what lies past them stays. A refused job changes nothing else that is lent, the counter neither. */
voldrekka_job_answer voldrekka_job(uint64_t *counter,
                                   uint64_t *lanes, size_t lanes_len,
                                   uint64_t *boundaries, size_t boundaries_len,
                                   uint64_t *roads, size_t roads_len,
                                   uint64_t *junctions, size_t junctions_len,
                                   uint64_t *rules, size_t rules_len,
                                   uint64_t *stop_lines, size_t stop_lines_len,
                                   uint64_t *crosswalks, size_t crosswalks_len,
                                   double *coordinates, size_t coordinates_len,
                                   const uint64_t *commands, size_t commands_len,
                                   uint64_t *old_lanes, size_t old_lanes_len,
                                   uint64_t *old_boundaries, size_t old_boundaries_len,
                                   uint64_t *old_roads, size_t old_roads_len,
                                   uint64_t *old_junctions, size_t old_junctions_len,
                                   uint64_t *old_rules, size_t old_rules_len,
                                   uint64_t *old_stop_lines, size_t old_stop_lines_len,
                                   uint64_t *old_crosswalks, size_t old_crosswalks_len,
                                   double *old_coordinates, size_t old_coordinates_len,
                                   uint64_t *created, size_t created_len,
                                   uint64_t *modified, size_t modified_len,
                                   uint64_t *deleted, size_t deleted_len,
                                   uint64_t *warnings, size_t warnings_len);

/* ---- a map and the lists of an answer, so that a call takes three arguments */

typedef struct voldrekka_words {
    uint64_t *at;
    size_t len;
} voldrekka_words;

typedef struct voldrekka_floats {
    double *at;
    size_t len;
} voldrekka_floats;

typedef struct voldrekka_map {
    voldrekka_counter counter;
    voldrekka_words lanes;
    voldrekka_words boundaries;
    voldrekka_words roads;
    voldrekka_words junctions;
    voldrekka_words rules;
    voldrekka_words stop_lines;
    voldrekka_words crosswalks;
    voldrekka_floats coordinates;
} voldrekka_map;

typedef struct voldrekka_lists {
    voldrekka_words created;
    voldrekka_words modified;
    voldrekka_words deleted;
    voldrekka_words warnings;
} voldrekka_lists;

/* Whether the map is sound. */
static inline bool voldrekka_map_sound(const voldrekka_map *map)
{
    return voldrekka_sound(map->counter.next,
                           map->lanes.at, map->lanes.len,
                           map->boundaries.at, map->boundaries.len,
                           map->roads.at, map->roads.len,
                           map->junctions.at, map->junctions.len,
                           map->rules.at, map->rules.len,
                           map->stop_lines.at, map->stop_lines.len,
                           map->crosswalks.at, map->crosswalks.len,
                           map->coordinates.at, map->coordinates.len);
}

/* Why the map is not sound; clause 0 if it is. */
static inline voldrekka_flaw voldrekka_map_fault(const voldrekka_map *map)
{
    return voldrekka_fault(map->counter.next,
                           map->lanes.at, map->lanes.len,
                           map->boundaries.at, map->boundaries.len,
                           map->roads.at, map->roads.len,
                           map->junctions.at, map->junctions.len,
                           map->rules.at, map->rules.len,
                           map->stop_lines.at, map->stop_lines.len,
                           map->crosswalks.at, map->crosswalks.len,
                           map->coordinates.at, map->coordinates.len);
}

/* Makes a command on a map, whose counter moves on, or refuses it and leaves map, counter and lists alone. */
static inline voldrekka_answer voldrekka_map_apply(voldrekka_map *map, const uint64_t command[VOLDREKKA_COMMAND_WORDS], const voldrekka_lists *lists)
{
    return voldrekka_apply(&map->counter,
                           map->lanes.at, map->lanes.len,
                           map->boundaries.at, map->boundaries.len,
                           map->roads.at, map->roads.len,
                           map->junctions.at, map->junctions.len,
                           map->rules.at, map->rules.len,
                           map->stop_lines.at, map->stop_lines.len,
                           map->crosswalks.at, map->crosswalks.len,
                           map->coordinates.at, map->coordinates.len,
                           command, VOLDREKKA_COMMAND_WORDS,
                           lists->created.at, lists->created.len,
                           lists->modified.at, lists->modified.len,
                           lists->deleted.at, lists->deleted.len,
                           lists->warnings.at, lists->warnings.len);
}

/* Makes `count` commands as one job on a map, all of them or none; `commands` are as many rows of words, one behind the other. `area` is a second map, each slice as long as
 * the map's or longer, that comes to hold the old one; its counter is neither read nor written. */
static inline voldrekka_job_answer voldrekka_map_job(voldrekka_map *map, const uint64_t *commands, size_t count, const voldrekka_map *area, const voldrekka_lists *lists)
{
    return voldrekka_job(&map->counter.next,
                         map->lanes.at, map->lanes.len,
                         map->boundaries.at, map->boundaries.len,
                         map->roads.at, map->roads.len,
                         map->junctions.at, map->junctions.len,
                         map->rules.at, map->rules.len,
                         map->stop_lines.at, map->stop_lines.len,
                         map->crosswalks.at, map->crosswalks.len,
                         map->coordinates.at, map->coordinates.len,
                         commands, count * VOLDREKKA_COMMAND_WORDS,
                         area->lanes.at, area->lanes.len,
                         area->boundaries.at, area->boundaries.len,
                         area->roads.at, area->roads.len,
                         area->junctions.at, area->junctions.len,
                         area->rules.at, area->rules.len,
                         area->stop_lines.at, area->stop_lines.len,
                         area->crosswalks.at, area->crosswalks.len,
                         area->coordinates.at, area->coordinates.len,
                         lists->created.at, lists->created.len,
                         lists->modified.at, lists->modified.len,
                         lists->deleted.at, lists->deleted.len,
                         lists->warnings.at, lists->warnings.len);
}

/* ---- the six edits */

static inline uint64_t voldrekka_bits(double x)
{
    uint64_t bits;
    memcpy(&bits, &x, sizeof bits);
    return bits;
}

/* Cuts a lane in two at a fraction of its length or at a station; with neighbours, everything reached through neighbour slots is cut
 * at the same cross-section. The lane keeps its id and becomes the first half; the answer names the second. */
static inline voldrekka_answer voldrekka_map_split(voldrekka_map *map, const voldrekka_lists *lists, uint64_t lane, enum voldrekka_place place, double at, bool neighbors)
{
    const uint64_t command[VOLDREKKA_COMMAND_WORDS] = {VOLDREKKA_SPLIT, lane, (uint64_t)place, voldrekka_bits(at), neighbors ? 1u : 0u};
    return voldrekka_map_apply(map, command, lists);
}

/* Merges `second` into `first`: it must be the only successor of `first`, and `first` its only predecessor. */
static inline voldrekka_answer voldrekka_map_merge(voldrekka_map *map, const voldrekka_lists *lists, uint64_t first, uint64_t second)
{
    const uint64_t command[VOLDREKKA_COMMAND_WORDS] = {VOLDREKKA_MERGE, first, second, 0, 0};
    return voldrekka_map_apply(map, command, lists);
}

/* Makes `to` a successor of `from`. Warns where their ends are more than 0.1 m apart. */
static inline voldrekka_answer voldrekka_map_connect(voldrekka_map *map, const voldrekka_lists *lists, uint64_t from, uint64_t to)
{
    const uint64_t command[VOLDREKKA_COMMAND_WORDS] = {VOLDREKKA_CONNECT, from, to, 0, 0};
    return voldrekka_map_apply(map, command, lists);
}

/* Removes the link from `from` to `to`. */
static inline voldrekka_answer voldrekka_map_disconnect(voldrekka_map *map, const voldrekka_lists *lists, uint64_t from, uint64_t to)
{
    const uint64_t command[VOLDREKKA_COMMAND_WORDS] = {VOLDREKKA_DISCONNECT, from, to, 0, 0};
    return voldrekka_map_apply(map, command, lists);
}

/* Sets or clears the neighbour of a lane on a side; the other lane's slot is set with it, and what either slot held is freed. */
static inline voldrekka_answer voldrekka_map_set_neighbor(voldrekka_map *map, const voldrekka_lists *lists, uint64_t lane, enum voldrekka_side side, enum voldrekka_direction direction, uint64_t other)
{
    const uint64_t command[VOLDREKKA_COMMAND_WORDS] = {VOLDREKKA_SET_NEIGHBOR, lane, (uint64_t)side, (uint64_t)direction, other};
    return voldrekka_map_apply(map, command, lists);
}

/* Removes a lane, every mention of it, and its boundaries where no lane is left that uses them. */
static inline voldrekka_answer voldrekka_map_remove(voldrekka_map *map, const voldrekka_lists *lists, uint64_t lane)
{
    const uint64_t command[VOLDREKKA_COMMAND_WORDS] = {VOLDREKKA_REMOVE, lane, 0, 0, 0};
    return voldrekka_map_apply(map, command, lists);
}

/* ---- the assumption that a program can test */

/* Whether this thread's floating-point state is the one assumed: subnormals in and out are kept, and rounding is to nearest. */
static inline bool voldrekka_float_state(void)
{
    const volatile double least = 4.9406564584124654e-324; /* 2^-1074 */
    const volatile double normal = 2.2250738585072014e-308; /* 2^-1022 */
    const volatile double quarter = 5.5511151231257827e-17; /* 2^-54, a quarter of the distance from 1 to the next double */
    const volatile double one = 1.0;
    const volatile double next = 1.0000000000000002;
    const volatile double twice = least + least;
    const volatile double half = normal * 0.5;
    const volatile double below = one + quarter;
    const volatile double above = one + 3 * quarter;
    return twice > least && half > 0.0 && below == one && above == next;
}

#ifdef __cplusplus
}
#endif

#endif
