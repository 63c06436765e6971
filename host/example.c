/* The bridge network of document 01: writes its feed, reads it, asks 0 to 2 at 100, and prints the answer as 01's printer does. */
#include "pospolarku.h"

#include <inttypes.h>
#include <stdio.h>

static uint32_t routes[POSPOLARKU_ROUTES] = {
    3, 2, 0, 0, /* 0, 1, 2; two trips */
    2, 2, 3, 6, /* 1, 3; two trips */
};
static uint32_t positions[POSPOLARKU_POSITIONS] = {0, 1, 2, 1, 3};
static uint32_t arrivals[POSPOLARKU_ARRIVALS] = {100, 200, 400, 300, 400, 600, 205, 250, 260, 320};
static uint32_t departures[POSPOLARKU_DEPARTURES] = {100, 210, 400, 300, 410, 600, 205, 250, 260, 320};
static uint32_t walks[POSPOLARKU_WALKS] = {3, 2, 30};
static uint32_t labels[POSPOLARKU_LABELS];
static uint32_t legs[POSPOLARKU_LEGS];
static uint8_t feed[POSPOLARKU_FEED];

#define TABLES \
    routes, POSPOLARKU_ROUTES, positions, POSPOLARKU_POSITIONS, arrivals, POSPOLARKU_ARRIVALS, \
    departures, POSPOLARKU_DEPARTURES, walks, POSPOLARKU_WALKS

static int refused(uint64_t answer)
{
    if (POSPOLARKU_NUMBER(answer) == POSPOLARKU_DONE)
        return 0;
    printf("refused %" PRIu32 " %" PRIu32 "\n", POSPOLARKU_NUMBER(answer), POSPOLARKU_PLACE(answer));
    return 1;
}

int main(void)
{
    uint64_t bytes = pospolarku_write(5, 2, 1, TABLES, feed, sizeof feed);
    if (refused(bytes))
        return 1;

    /* Into the same tables: reading leaves nothing of what stood there. */
    uint64_t head = pospolarku_read(feed, (size_t)bytes, TABLES);
    if (refused(head))
        return 1;

    uint32_t entries[POSPOLARKU_ENTRIES];
    uint64_t work = pospolarku_ask(
        POSPOLARKU_STOPS_READ(head), POSPOLARKU_ROUTES_READ(head), POSPOLARKU_WALKS_READ(head), TABLES,
        labels, POSPOLARKU_LABELS, legs, POSPOLARKU_LEGS, 0, 2, 100, 8, 100, entries, POSPOLARKU_ENTRIES);
    if (refused(work))
        return 1;

    printf("journeys %" PRIu32 " work %" PRIu64 "\n", entries[0], work);
    for (uint32_t entry = 0; entry < entries[0]; entry++) {
        uint32_t rides = entries[1 + 2 * entry];
        printf("trips %" PRIu32 " arrive %" PRIu32 "\n", rides, entries[2 + 2 * entry]);
        for (uint32_t ride = 0; ride < rides; ride++) {
            const uint32_t *leg = &legs[POSPOLARKU_LEGS_ROW * (rides - 1) + POSPOLARKU_LEG * ride];
            printf("%" PRIu32 " %" PRIu32 " %" PRIu32 " %" PRIu32 " ", leg[0], leg[1], leg[2], leg[3]);
            if (leg[4] == POSPOLARKU_MARK)
                printf("-\n");
            else
                printf("%" PRIu32 "\n", leg[4]);
        }
    }
    return 0;
}
