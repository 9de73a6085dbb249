/* The mast's USB device core, for C and C++.
 *
 * A caller holds a device as MAST_STATE bytes and lends them to each call. Nothing is kept between calls, nothing is allocated,
 * and any bytes get an answer: bytes that no device is written as are refusal 9. A refused call changes no lent byte;
 * a run that is stopped on its way keeps what it did before.
 *
 * Every slice is a pointer and the number of its bytes. No pointer may be NULL, even of a slice of 0 bytes, and what a call may
 * write (a pointer without const) may not overlap what else it is lent. Two calls may run at a time on different states.
 *
 * Numbers of more than one byte are little-endian. The archive, liblink.a, is for x86-64-v2 and calls memcpy and memset.
 */
#ifndef MAST_H
#define MAST_H

#include <stdbool.h>
#include <stddef.h>
#include <stdint.h>

#ifdef __cplusplus
extern "C" {
#endif

/* ---- sizes in bytes */

#define MAST_RECORD 833  /* the record that a device is built from */
#define MAST_STATE 1005  /* a device: its record, 44 bytes of what it holds beside it, its buffer of 128 */
#define MAST_EVENT 80    /* an event record */
#define MAST_ENTRY 82    /* a trace entry */
#define MAST_PACKET 64   /* the packet in either */
#define MAST_TILE 16     /* a record of the tile book */
#define MAST_BOOK 65536  /* the longest tile book */

/* ---- the refusals, by document 01's numbers; 0 is none */

#define MAST_NONE 0
#define MAST_PACKET_SIZE 1 /* record: packet size; bytes that are not MAST_RECORD long */
#define MAST_LAYOUT 2      /* record: power, interfaces or endpoints; a flag or a kind that is neither 0 nor 1 */
#define MAST_LANGUAGES 3   /* record: languages or strings */
#define MAST_BOOK_LENGTH 4 /* building: length of the book */
#define MAST_OTHER_BOOK 5  /* a run: the book has another length than at building */
#define MAST_NO_DATA 7     /* no OUT data stage complete since the last accepted SETUP or reset */
#define MAST_DATA_ROOM 8   /* the room is shorter than the data */
#define MAST_BAD_STATE 9   /* bytes that are no device's, or one that may not be used */
#define MAST_BAD_EVENT 10  /* a run: a malformed or partial event record */

/* An answer of mast_run and mast_data: how many, and the number of the refusal. */
#define MAST_COUNT(answer) ((answer) >> 4)
#define MAST_NUMBER(answer) ((answer) & 15)

/* ---- places in a record. Of the arrays of entries the rest follows at the size of an entry. */

#define MAST_RECORD_PACKET 0       /* endpoint 0's packet size: 8, 16, 32 or 64 */
#define MAST_RECORD_CLASS 1
#define MAST_RECORD_SUBCLASS 2
#define MAST_RECORD_PROTOCOL 3
#define MAST_RECORD_VENDOR 4       /* 2 bytes */
#define MAST_RECORD_PRODUCT 6      /* 2 bytes */
#define MAST_RECORD_RELEASE 8      /* 2 bytes */
#define MAST_RECORD_POWER 10       /* units of 2 mA, 0 to 250 */
#define MAST_RECORD_SELF_POWERED 11 /* 0 or 1 */
#define MAST_RECORD_WAKEUP 12      /* 0 or 1 */
#define MAST_RECORD_QUIRK 13       /* 0 or 1: the address is set when its request is decided */
#define MAST_RECORD_INTERFACES 14  /* how many, 1 to 4 */
#define MAST_RECORD_ENDPOINTS 15   /* how many, 0 to 8 */
#define MAST_RECORD_LANGUAGES 16   /* how many, 0 to 4 */
#define MAST_RECORD_INTERFACE 17   /* 4 entries of 3: class, subclass, protocol */
#define MAST_RECORD_ENDPOINT 29    /* 8 entries of 5: address, kind (0 bulk, 1 interrupt), size, interval, interface */
#define MAST_RECORD_LANGUAGE 69    /* 4 entries of 2: a language's identifier */
#define MAST_RECORD_LENGTH 77      /* 12 bytes, 3 for each language: 0 for no string, else its units and one */
#define MAST_RECORD_UNITS 89       /* 12 entries of 62: the 31 UTF-16 units of each string */

/* ---- places in an event record */

#define MAST_EVENT_KIND 0   /* 0 nothing, 1 reset, 2 suspend, 3 resume, 4 data; of 0 to 3 no other byte counts */
#define MAST_EVENT_READ 1   /* 0 packet, 1 would-block, 2 fault */
#define MAST_EVENT_WRITE 2  /* 0 taken, 1 refused */
#define MAST_EVENT_LENGTH 3 /* of the packet, 0 to 64 */
#define MAST_EVENT_OUT 4    /* 2 bytes, bit n is endpoint n */
#define MAST_EVENT_IN 6     /* 2 bytes: IN-completes */
#define MAST_EVENT_SETUP 8  /* 2 bytes, then six zero bytes */
#define MAST_EVENT_PACKET 16 /* the packet, zero-filled to 64 */

/* ---- places in a trace entry */

#define MAST_ENTRY_STATE 0   /* 0 default, 1 addressed, 2 configured, 3 suspended */
#define MAST_ENTRY_ANSWER 1  /* 1 for data, else 0 */
#define MAST_ENTRY_SETUP 2   /* 2 bytes, endpoints 1 to 15: SETUP */
#define MAST_ENTRY_OUT 4     /* 2 bytes: OUT without SETUP */
#define MAST_ENTRY_IN 6      /* 2 bytes: IN-complete */
#define MAST_ENTRY_ACTIONS 8 /* 5 actions of 2: a code and its argument */
#define MAST_ENTRY_PACKET 18 /* the packet that was written, zero-filled to 64 */

/* What the bus is told, in the order of the actions. An endpoint's address is the argument of HALT and UNHALT, a bus address of
 * ADDRESS, the packet's length of WRITE and REFUSED, else it is 0. */
#define MAST_ACTION_NOTHING 0
#define MAST_ACTION_RESUME 1
#define MAST_ACTION_SUSPEND 2
#define MAST_ACTION_RESET 3
#define MAST_ACTION_UNSTALL_OUT 4
#define MAST_ACTION_UNSTALL_IN 5
#define MAST_ACTION_STALL_OUT 6
#define MAST_ACTION_STALL_IN 7
#define MAST_ACTION_HALT 8
#define MAST_ACTION_UNHALT 9
#define MAST_ACTION_ADDRESS 10
#define MAST_ACTION_WRITE 11
#define MAST_ACTION_REFUSED 12

/* ---- the calls */

/* MAST_STATE, as the library has it. */
size_t mast_size(void);

/* Makes a device of a record, for a book of so many bytes, and writes it into the state. Refusals 1 to 4, lowest first, then 9
 * where the state is not MAST_STATE long. */
uint8_t mast_build(const uint8_t *record, size_t record_length, size_t book, uint8_t *state, size_t state_length);

/* Takes the device through the event records, in order, and writes a trace entry for each to the front of the trace. It stops at
 * the end of the events or before the trace is full, with no refusal, and before an event record that is refused: 9, then 5; 10 of
 * a malformed or partial record. The answer has how many it took and the number that stopped it. */
size_t mast_run(uint8_t *state, size_t state_length, const uint8_t *book, size_t book_length, const uint8_t *events, size_t events_length, uint8_t *trace, size_t trace_length);

/* Hands out the OUT data of the last accepted SETUP, to the front of the room. The answer has how many bytes, or refusal 9, 7, 8. */
size_t mast_data(const uint8_t *state, size_t state_length, uint8_t *room, size_t room_length);

/* Sets whether the device is self-powered now. Refusal 9. */
uint8_t mast_set_self_powered(uint8_t *state, size_t state_length, bool on);

#ifdef __cplusplus
}
#endif

#endif
