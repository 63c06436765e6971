/* Pospolarku: reading, checking, writing and asking tram timetable feeds. Link with libcabinet.a (`host/build` makes it).
 *
 * All words, numbers and places are those of document 01, the exact scope and rules. The functions are proved to answer every
 * input, however damaged; they keep nothing and have no other effect than what is said here.
 *
 * Tables. The caller owns every table and lends it for the call. A table is a pointer to its first element and then its length in
 * elements. Any length is allowed: one below the full size is refused (6). The pointer must be aligned, not null, and lead to that
 * many elements, and nothing that a call writes may overlap another thing lent. The same holds of feed, out and entries.
 *
 *   No.  table       full size  holds
 *   1    routes            256  for each route n, m, first position, first event
 *   2    positions       2,048  stop numbers, route after route
 *   3    arrivals        2,048  route after route, trip after trip, n each
 *   4    departures      2,048  likewise
 *   5    walks           1,536  from, to, seconds
 *   6    labels          2,304  nine rows of 256
 *   7    legs              320  eight rows of eight legs of five numbers: route, trip, boarding position, leaving position, stop walked to
 *
 * Elements beyond the used part are not read. Elements beyond the full size are never written.
 *
 * Answers. A call answers number * 2^32 + place if it is refused, and its count, below 2^32, if it is done. Refusals stand in the
 * order: 6; feeds: 1, 2, then 3, 4, 5 by records from the left, then 7 to 11; tables: 5, 7 to 11; questions then 12, 13, 14;
 * writing then 15. */
#ifndef POSPOLARKU_H
#define POSPOLARKU_H

#include <stddef.h>
#include <stdint.h>

#ifdef __cplusplus
extern "C" {
#endif

/* Full sizes, in elements. */
#define POSPOLARKU_ROUTES 256
#define POSPOLARKU_POSITIONS 2048
#define POSPOLARKU_ARRIVALS 2048
#define POSPOLARKU_DEPARTURES 2048
#define POSPOLARKU_WALKS 1536
#define POSPOLARKU_LABELS 2304
#define POSPOLARKU_LEGS 320
#define POSPOLARKU_LEGS_ROW 40
#define POSPOLARKU_LEG 5
#define POSPOLARKU_ENTRIES 19
/* Bytes of the longest feed: a buffer of this size is never too short. */
#define POSPOLARKU_FEED 17869
/* "No journey" in the labels, "unused" and "no walk" in the legs. */
#define POSPOLARKU_MARK UINT32_MAX

enum pospolarku_refusal {
    POSPOLARKU_DONE = 0,
    POSPOLARKU_LENGTH = 1,    /* place 0 */
    POSPOLARKU_SUM = 2,       /* place: length - 2 */
    POSPOLARKU_FORM = 3,      /* place: the record's offset */
    POSPOLARKU_EDITION = 4,   /* place 2 */
    POSPOLARKU_COUNT = 5,     /* place: feed: the record's offset; tables: the route, or 64 for head counts */
    POSPOLARKU_TABLE = 6,     /* place: the lowest number of a table that is too short */
    POSPOLARKU_STOP = 7,      /* place: the position */
    POSPOLARKU_TIME = 8,      /* place: the event; the earlier one if it departs after the next arrival */
    POSPOLARKU_OVERTAKE = 9,  /* place: the later trip's event */
    POSPOLARKU_WALK = 10,     /* place: the walk; the later one for order */
    POSPOLARKU_OPEN = 11,     /* place: the first walk a to b that shows it */
    POSPOLARKU_QUESTION = 12, /* place 0 */
    POSPOLARKU_BUDGET = 13,   /* place: the round that passes it */
    POSPOLARKU_NO_WAY = 14,   /* place: the work */
    POSPOLARKU_OUT = 15       /* place: bytes needed */
};

/* The two halves of an answer. */
#define POSPOLARKU_NUMBER(answer) ((uint32_t)((answer) >> 32))
#define POSPOLARKU_PLACE(answer) ((uint32_t)(answer))

/* Checks tables 1 to 5 with their head counts: stops 1 to 256, routes 0 to 64, walks 0 to 512.
 * Done: the work limit, 8 x (positions - routes + trips + walks), which no question over these tables passes.
 * Refused: 6, 5, 7 to 11. Changes nothing, done or refused. */
uint64_t pospolarku_check(
    uint32_t stops, uint32_t route_count, uint32_t walk_count,
    const uint32_t *routes, size_t routes_len, const uint32_t *positions, size_t positions_len,
    const uint32_t *arrivals, size_t arrivals_len, const uint32_t *departures, size_t departures_len,
    const uint32_t *walks, size_t walks_len);

/* Reads a feed of feed_len bytes into tables 1 to 5. The feed is only read.
 * Done: the head counts, stops + 1,024 * routes + 131,072 * walks (below). Tables 1 to 5 hold the timetable, zero in the rest of
 * their full size.
 * Refused: 6, 1, 2: the tables are untouched. 3, 4, 5, 7 to 11: tables 1 to 5 are zero over their full size. */
uint64_t pospolarku_read(
    const uint8_t *feed, size_t feed_len,
    uint32_t *routes, size_t routes_len, uint32_t *positions, size_t positions_len,
    uint32_t *arrivals, size_t arrivals_len, uint32_t *departures, size_t departures_len,
    uint32_t *walks, size_t walks_len);

#define POSPOLARKU_STOPS_READ(answer) ((uint32_t)(answer) & 1023)
#define POSPOLARKU_ROUTES_READ(answer) ((uint32_t)(answer) >> 10 & 127)
#define POSPOLARKU_WALKS_READ(answer) ((uint32_t)(answer) >> 17)

/* Checks tables 1 to 5 and writes their feed to the front of out, a buffer of out_len bytes.
 * Done: the number of bytes written; the bytes behind them are untouched.
 * Refused: 6, 5, 7 to 11, 15. Changes nothing then. Tables 1 to 5 are only read. */
uint64_t pospolarku_write(
    uint32_t stops, uint32_t route_count, uint32_t walk_count,
    const uint32_t *routes, size_t routes_len, const uint32_t *positions, size_t positions_len,
    const uint32_t *arrivals, size_t arrivals_len, const uint32_t *departures, size_t departures_len,
    const uint32_t *walks, size_t walks_len,
    uint8_t *out, size_t out_len);

/* Checks tables 1 to 5 and answers a question over them: from start to target, leaving at time (0 to 172,799), with at most limit
 * rides (0 to 8) and a work budget. Tables 1 to 5 are only read.
 * Done: the work. Row k of the labels, k from 0 to limit, holds for each stop the earliest arrival with at most k rides, or the
 * mark. Row k - 1 of the legs holds, in travel order, the k legs of the entry with k rides. The rest of both is the mark.
 * Refused: 6, 5, 7 to 12: labels and legs are untouched. 13: both are all mark. 14: the labels are right, the legs all mark.
 *
 * entries is no table of 01. With entries_len of 19 or more it gets the number of entries N, then nine pairs of rides and arrival, the
 * unused ones 0; on any refusal all 19 are 0; elements beyond 19 are untouched. With less than 19 it is untouched. */
uint64_t pospolarku_ask(
    uint32_t stops, uint32_t route_count, uint32_t walk_count,
    const uint32_t *routes, size_t routes_len, const uint32_t *positions, size_t positions_len,
    const uint32_t *arrivals, size_t arrivals_len, const uint32_t *departures, size_t departures_len,
    const uint32_t *walks, size_t walks_len,
    uint32_t *labels, size_t labels_len, uint32_t *legs, size_t legs_len,
    uint32_t start, uint32_t target, uint32_t time, uint32_t limit, uint32_t budget,
    uint32_t *entries, size_t entries_len);

#ifdef __cplusplus
}
#endif

#endif
