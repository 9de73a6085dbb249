/* Enumerates the device of the field notes through mast.h, and tries what is refused. It says what went wrong and where. */
#include "mast.h"

#include <stdio.h>
#include <string.h>

static int failed;

static void expect(int line, const char *what, int holds)
{
    if (!holds) {
        fprintf(stderr, "test.c:%d: %s\n", line, what);
        failed = 1;
    }
}

#define EXPECT(e) expect(__LINE__, #e, (e) != 0)

/* Notes 4 and 5: vendor 1234h, product 0138h, one interface of class FF, endpoint 81h bulk 64, 100 mA, "Pan" for strings 1 and 2. */
static void pan(uint8_t record[MAST_RECORD])
{
    static const uint8_t text[6] = {0x50, 0, 0x61, 0, 0x6e, 0};
    memset(record, 0, MAST_RECORD);
    record[MAST_RECORD_PACKET] = 8;
    record[MAST_RECORD_VENDOR] = 0x34;
    record[MAST_RECORD_VENDOR + 1] = 0x12;
    record[MAST_RECORD_PRODUCT] = 0x38;
    record[MAST_RECORD_PRODUCT + 1] = 0x01;
    record[MAST_RECORD_RELEASE + 1] = 0x01;
    record[MAST_RECORD_POWER] = 50;
    record[MAST_RECORD_INTERFACES] = 1;
    record[MAST_RECORD_ENDPOINTS] = 1;
    record[MAST_RECORD_LANGUAGES] = 1;
    record[MAST_RECORD_INTERFACE] = 0xff;
    record[MAST_RECORD_ENDPOINT] = 0x81;
    record[MAST_RECORD_ENDPOINT + 2] = 64;
    record[MAST_RECORD_LANGUAGE] = 0x09;
    record[MAST_RECORD_LANGUAGE + 1] = 0x04;
    record[MAST_RECORD_LENGTH] = 4;
    record[MAST_RECORD_LENGTH + 1] = 4;
    memcpy(record + MAST_RECORD_UNITS, text, sizeof text);
    memcpy(record + MAST_RECORD_UNITS + 62, text, sizeof text);
}

/* A SETUP, an OUT packet and an IN-complete, each as an event record. */
static void packet(uint8_t *event, int mask, const uint8_t *bytes, uint8_t n)
{
    memset(event, 0, MAST_EVENT);
    event[MAST_EVENT_KIND] = 4;
    event[MAST_EVENT_LENGTH] = n;
    event[mask] = 1;
    memcpy(event + MAST_EVENT_PACKET, bytes, n);
}

static void taken(uint8_t *event)
{
    memset(event, 0, MAST_EVENT);
    event[MAST_EVENT_KIND] = 4;
    event[MAST_EVENT_IN] = 1;
}

static void reset(uint8_t *event)
{
    memset(event, 0, MAST_EVENT);
    event[MAST_EVENT_KIND] = 1;
}

/* Whether an entry tells the bus of an action. */
static int tells(const uint8_t *entry, uint8_t code, uint8_t argument)
{
    for (int i = 0; i < 5; i++) {
        const uint8_t *a = entry + MAST_ENTRY_ACTIONS + 2 * i;
        if (a[0] == code && a[1] == argument)
            return 1;
    }
    return 0;
}

static uint8_t record[MAST_RECORD], state[MAST_STATE], before[MAST_STATE], events[16 * MAST_EVENT], trace[16 * MAST_ENTRY];
static const uint8_t nothing[1];

static void enumerates(void)
{
    static const uint8_t device[8] = {0x80, 6, 0, 1, 0, 0, 64, 0};
    static const uint8_t address[8] = {0, 5, 5, 0, 0, 0, 0, 0};
    static const uint8_t configure[8] = {0, 9, 1, 0, 0, 0, 0, 0};
    static const uint8_t bytes[18] = {0x12, 1, 0, 2, 0, 0, 0, 8, 0x34, 0x12, 0x38, 1, 0, 1, 1, 2, 0, 1};
    const uint8_t *e = trace + MAST_ENTRY;

    reset(events);
    packet(events + 1 * MAST_EVENT, MAST_EVENT_SETUP, device, 8);
    taken(events + 2 * MAST_EVENT);
    taken(events + 3 * MAST_EVENT);
    taken(events + 4 * MAST_EVENT);
    packet(events + 5 * MAST_EVENT, MAST_EVENT_OUT, nothing, 0);
    packet(events + 6 * MAST_EVENT, MAST_EVENT_SETUP, address, 8);
    taken(events + 7 * MAST_EVENT);
    packet(events + 8 * MAST_EVENT, MAST_EVENT_SETUP, configure, 8);
    taken(events + 9 * MAST_EVENT);
    size_t answer = mast_run(state, sizeof state, nothing, 0, events, 10 * MAST_EVENT, trace, sizeof trace);
    EXPECT(MAST_COUNT(answer) == 10);
    EXPECT(MAST_NUMBER(answer) == MAST_NONE);
    /* the device descriptor in packets of 8, 8 and 2 */
    for (int i = 0; i < 3; i++) {
        uint8_t n = i < 2 ? 8 : 2;
        EXPECT(tells(e + i * MAST_ENTRY, MAST_ACTION_WRITE, n));
        EXPECT(memcmp(e + i * MAST_ENTRY + MAST_ENTRY_PACKET, bytes + 8 * i, n) == 0);
    }
    /* the address, when its status stage completes */
    EXPECT(!tells(trace + 6 * MAST_ENTRY, MAST_ACTION_ADDRESS, 5));
    EXPECT(tells(trace + 7 * MAST_ENTRY, MAST_ACTION_ADDRESS, 5));
    EXPECT(trace[6 * MAST_ENTRY + MAST_ENTRY_STATE] == 0);
    EXPECT(trace[7 * MAST_ENTRY + MAST_ENTRY_STATE] == 1);
    EXPECT(trace[8 * MAST_ENTRY + MAST_ENTRY_STATE] == 2);
}

/* Note 9: four bytes of OUT data, sent as eight. */
static void takes_data(void)
{
    static const uint8_t out[8] = {0x40, 2, 0, 0, 0, 0, 4, 0};
    static const uint8_t bytes[8] = {1, 2, 3, 4, 5, 6, 7, 8};
    static const uint8_t handed[8] = {1, 2, 3, 4, 9, 9, 9, 9};
    uint8_t room[8];

    memset(room, 9, sizeof room);
    EXPECT(mast_data(state, sizeof state, room, sizeof room) == MAST_NO_DATA);
    packet(events, MAST_EVENT_SETUP, out, 8);
    packet(events + MAST_EVENT, MAST_EVENT_OUT, bytes, 8);
    size_t answer = mast_run(state, sizeof state, nothing, 0, events, 2 * MAST_EVENT, trace, sizeof trace);
    EXPECT(MAST_COUNT(answer) == 2);
    EXPECT(MAST_NUMBER(answer) == MAST_NONE);
    EXPECT(mast_data(state, sizeof state, room, 3) == MAST_DATA_ROOM);
    EXPECT(room[0] == 9);
    answer = mast_data(state, sizeof state, room, sizeof room);
    EXPECT(MAST_COUNT(answer) == 4);
    EXPECT(MAST_NUMBER(answer) == MAST_NONE);
    EXPECT(memcmp(room, handed, sizeof room) == 0);
}

static void sets_flag(void)
{
    static const uint8_t status[8] = {0x80, 0, 0, 0, 0, 0, 2, 0};

    EXPECT(mast_set_self_powered(state, sizeof state, true) == MAST_NONE);
    packet(events, MAST_EVENT_SETUP, status, 8);
    EXPECT(mast_run(state, sizeof state, nothing, 0, events, MAST_EVENT, trace, sizeof trace) == 16);
    EXPECT(tells(trace, MAST_ACTION_WRITE, 2));
    EXPECT(trace[MAST_ENTRY_PACKET] == 1);
}

static void refuses(void)
{
    memcpy(before, state, sizeof state);
    memset(trace, 9, sizeof trace);
    taken(events);
    events[MAST_EVENT + 0] = 5;
    /* a book of another length, a malformed event, a partial one */
    EXPECT(mast_run(state, sizeof state, before, 16, events, MAST_EVENT, trace, sizeof trace) == MAST_OTHER_BOOK);
    EXPECT(mast_run(state, sizeof state, nothing, 0, events + MAST_EVENT, MAST_EVENT, trace, sizeof trace) == MAST_BAD_EVENT);
    EXPECT(mast_run(state, sizeof state, nothing, 0, events, MAST_EVENT - 1, trace, sizeof trace) == MAST_BAD_EVENT);
    EXPECT(memcmp(before, state, sizeof state) == 0);
    EXPECT(trace[0] == 9);
    /* a state that is too short, and one with a byte that no device has */
    EXPECT(mast_run(state, sizeof state - 1, nothing, 0, events, MAST_EVENT, trace, sizeof trace) == MAST_BAD_STATE);
    state[MAST_RECORD] = 10;
    EXPECT(mast_run(state, sizeof state, nothing, 0, events, MAST_EVENT, trace, sizeof trace) == MAST_BAD_STATE);
    EXPECT(mast_data(state, sizeof state, trace, sizeof trace) == MAST_BAD_STATE);
    EXPECT(mast_set_self_powered(state, sizeof state, false) == MAST_BAD_STATE);
    state[MAST_RECORD] = before[MAST_RECORD];
    EXPECT(memcmp(before, state, sizeof state) == 0);
    EXPECT(trace[0] == 9);
    /* records that are none */
    EXPECT(mast_build(record, sizeof record - 1, 0, state, sizeof state) == MAST_PACKET_SIZE);
    record[MAST_RECORD_ENDPOINT + 1] = 2;
    EXPECT(mast_build(record, sizeof record, 0, state, sizeof state) == MAST_LAYOUT);
    record[MAST_RECORD_PACKET] = 9;
    EXPECT(mast_build(record, sizeof record, 0, state, sizeof state) == MAST_PACKET_SIZE);
    pan(record);
    record[MAST_RECORD_LENGTH] = 33;
    EXPECT(mast_build(record, sizeof record, 0, state, sizeof state) == MAST_LANGUAGES);
    pan(record);
    EXPECT(mast_build(record, sizeof record, 15, state, sizeof state) == MAST_BOOK_LENGTH);
    EXPECT(mast_build(record, sizeof record, 0, state, sizeof state - 1) == MAST_BAD_STATE);
    EXPECT(memcmp(before, state, sizeof state) == 0);
    /* a state that was never built */
    memset(state, 0, sizeof state);
    EXPECT(mast_run(state, sizeof state, nothing, 0, events, MAST_EVENT, trace, sizeof trace) == MAST_BAD_STATE);
}

int main(void)
{
    EXPECT(mast_size() == MAST_STATE);
    pan(record);
    EXPECT(mast_build(record, sizeof record, 0, state, sizeof state) == MAST_NONE);
    EXPECT(memcmp(state, record, sizeof record) == 0);
    enumerates();
    takes_data();
    sets_flag();
    refuses();
    if (!failed)
        puts("c: ok");
    return failed;
}
