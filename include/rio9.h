/* rio9.h: a display inside another program (Plan 9's draw(3) and rio(4), spoken to by 9P messages).

   The library has three functions, rio9_open, rio9_call and rio9_close. Each other function here is a few lines over
   rio9_call, so that it needs no symbol of its own. They are not proved; docs/EMBED.md tells what is.

   What a caller has to keep:
   - A display is used by one thread at a time. Displays share nothing, so two threads may use two displays.
   - `display` is one that rio9_open gave and rio9_close has not had.
   - Each pointer has as many bytes behind it as its length says, and input and output do not overlap.
   - malloc, realloc and free are those of one allocator, and a block of malloc is aligned as C asks.
   - No call is made from a signal handler, or in the child of a fork of a program with threads.

   No call waits, starts a thread, reads or writes a file, ends the program, or keeps anything outside its display.
   Memory that runs out is a status.

   Link with `cc $(pkg-config --cflags rio9) program.c $(pkg-config --libs rio9)`. */
#ifndef RIO9_H
#define RIO9_H

#include <stddef.h>
#include <stdint.h>

#ifdef __cplusplus
extern "C" {
#endif

/* A display, and all that its sessions made of it. */
typedef struct rio9 rio9;

/* How a call came out. */
enum rio9_status {
	RIO9_DONE = 0,           /* What was asked is done. */
	RIO9_MEMORY = 1,         /* There was no memory, or all has stopped for want of it. */
	RIO9_CROWDED = 2,        /* There are too many sessions. */
	RIO9_CLOSED = 3,         /* The session does not live, or the message was none and has closed it. */
	RIO9_DUPLICATE = 4,      /* The message's tag is in use, and has closed the session. number: the tag. */
	RIO9_NOTHING = 5,        /* Nothing waits for the session; or there was no event of the mouse. */
	RIO9_OVER = 6,           /* Nothing waits for the session, and nothing more will come. */
	RIO9_BAD_RECTANGLE = 7,  /* The rectangle has no point, or one that is not the display's. */
	RIO9_BAD_RECORD = 8,     /* The input is no record, or no event. number: the byte at which a record goes wrong. */
	RIO9_LATE_RECORD = 9,    /* The input is a later part of a record. number: the entry with which it begins. */
	RIO9_BAD_EVENT = 10,     /* An event may not come next. number: how many events of the record were made before it. */
	RIO9_FULL = 11,          /* The history has 2^61 entries, and takes no more. */
	RIO9_BAD_OPERATION = 12, /* There is no such operation. */
	RIO9_BAD_SIZE = 13,      /* A side of the display is none from 1 to 2048. */
	RIO9_BAD_CHANNELS = 14,  /* These are no channels of image(6). */
	RIO9_NULL = 15,          /* A pointer is null that may not be. Nothing was done. */
	RIO9_SHORT = 16          /* Done, but the answer has more bytes than the output. rio9_again gives the rest. */
};

/* What is asked. Each has a function of its own below, which tells what it does. */
enum rio9_operation {
	RIO9_AGAIN = 0,
	RIO9_BEGIN = 1,
	RIO9_MESSAGE = 2,
	RIO9_TAKE = 3,
	RIO9_END = 4,
	RIO9_EXCHANGE = 5,
	RIO9_WAITING = 6,
	RIO9_SCREEN = 7,
	RIO9_ROWS = 8,
	RIO9_MARKS = 9,
	RIO9_CLEAR_MARKS = 10,
	RIO9_POINTER = 11,
	RIO9_SIZE = 12,
	RIO9_RECORD = 13,
	RIO9_FORGET = 14,
	RIO9_LOAD = 15,
	RIO9_ENTRIES = 16,
	RIO9_EVENT = 17
};

/* An operation, and up to four numbers: a session as `a`, a rectangle as (a, b)-(c, d), or a place as a + 2^32 b. */
typedef struct rio9_request {
	uint32_t operation; /* enum rio9_operation */
	uint32_t a, b, c, d;
} rio9_request;

/* What a call gave. A number that the operation does not name is 0. */
typedef struct rio9_result {
	uint32_t status; /* enum rio9_status */
	uint64_t number;
	uint64_t other;
	uint64_t rings;  /* Other sessions that got replies: bit (session mod 64) is set for each. */
	uint64_t pixels; /* How many pixels a message wrote. */
	uint64_t length; /* How many bytes the answer has. The display keeps them until the next call. */
} rio9_result;

/* Opens a display of these sides in pixels, whose channels are those of image(6), such as "x8r8g8b8" (`length` bytes, no 0 behind them
   needed). Gives a status; if it is RIO9_DONE, `*display` is the display, which rio9_close frees, and else it is not written.
   Statuses: DONE, BAD_SIZE, BAD_CHANNELS, MEMORY. No pointer may be null. */
uint32_t rio9_open(uint32_t width, uint32_t height, const uint8_t *channels, size_t length, rio9 **display);

/* Does what is asked. The first bytes of the answer, as many as there is room for, are put into `output`; the other bytes of it stay as they were.
   No pointer may be null, not even with a length of 0. */
rio9_result rio9_call(rio9 *display, const rio9_request *request, const uint8_t *input, size_t length, uint8_t *output, size_t room);

/* Frees a display and all that it holds. */
void rio9_close(rio9 *display);

/* rio9_call with pointers that may be null: RIO9_NULL if `display` is, or a pointer whose length is not 0. */
static inline rio9_result rio9_ask(rio9 *display, rio9_request request, const void *input, size_t length, void *output, size_t room) {
	uint8_t none = 0;
	if (!display || (!input && length) || (!output && room)) {
		rio9_result refused = {RIO9_NULL, 0, 0, 0, 0, 0};
		return refused;
	}
	return rio9_call(display, &request, input ? (const uint8_t *)input : &none, length, output ? (uint8_t *)output : &none, room);
}

/* An operation on a session. */
static inline rio9_result rio9_ask_of(rio9 *display, uint32_t operation, uint32_t a, const void *input, size_t length, void *output, size_t room) {
	rio9_request request = {operation, a, 0, 0, 0};
	return rio9_ask(display, request, input, length, output, room);
}

/* Each function below gives MEMORY if memory ran out and RIO9_NULL for a null pointer; one with `output` gives SHORT if
   that is too small. Its other statuses stand in brackets. */

/* A session begins. number: the session. [DONE, CROWDED, FULL] */
static inline rio9_result rio9_begin(rio9 *display) {
	return rio9_ask_of(display, RIO9_BEGIN, 0, NULL, 0, NULL, 0);
}

/* A session ends: its fids, connections and windows go. [DONE, CLOSED, FULL] */
static inline rio9_result rio9_end(rio9 *display, uint32_t session) {
	return rio9_ask_of(display, RIO9_END, session, NULL, 0, NULL, 0);
}

/* A session sends one whole 9P message. Its reply waits for rio9_take, and so do replies of other sessions that it answered (`rings`).
   number: the session's msize. [DONE, CLOSED, DUPLICATE, FULL] */
static inline rio9_result rio9_message(rio9 *display, uint32_t session, const void *message, size_t length) {
	return rio9_ask_of(display, RIO9_MESSAGE, session, message, length, NULL, 0);
}

/* A session takes the replies that wait for it, one behind the other. [DONE, NOTHING, OVER, FULL] */
static inline rio9_result rio9_take(rio9 *display, uint32_t session, void *output, size_t room) {
	return rio9_ask_of(display, RIO9_TAKE, session, NULL, 0, output, room);
}

/* rio9_message, and if it is DONE then rio9_take. number: the session's msize. A message that waits gives NOTHING. [DONE, NOTHING, OVER, CLOSED,
   DUPLICATE, FULL] */
static inline rio9_result rio9_exchange(rio9 *display, uint32_t session, const void *message, size_t length, void *output, size_t room) {
	return rio9_ask_of(display, RIO9_EXCHANGE, session, message, length, output, room);
}

/* number: how many bytes of replies wait for a session. [DONE] */
static inline rio9_result rio9_waiting(rio9 *display, uint32_t session) {
	return rio9_ask_of(display, RIO9_WAITING, session, NULL, 0, NULL, 0);
}

/* The display as an image(6) file. [DONE] */
static inline rio9_result rio9_screen(rio9 *display, void *output, size_t room) {
	return rio9_ask_of(display, RIO9_SCREEN, 0, NULL, 0, output, room);
}

/* The rows of the rectangle (x0, y0)-(x1, y1), in the layout of image(6) and the channels of the display: with x8r8g8b8 four
   bytes a pixel, blue, green, red and 0. [DONE, BAD_RECTANGLE] */
static inline rio9_result rio9_rows(rio9 *display, uint32_t x0, uint32_t y0, uint32_t x1, uint32_t y1, void *output, size_t room) {
	rio9_request request = {RIO9_ROWS, x0, y0, x1, y1};
	return rio9_ask(display, request, NULL, 0, output, room);
}

/* A byte for each cell of 32 by 32 pixels, row by row: 1 if a pixel of it was written since the marks were cleared, and else 0.
   number, other: how many cells across and down. [DONE] */
static inline rio9_result rio9_marks(rio9 *display, void *output, size_t room) {
	return rio9_ask_of(display, RIO9_MARKS, 0, NULL, 0, output, room);
}

/* Clears the marks. [DONE] */
static inline rio9_result rio9_clear_marks(rio9 *display) {
	return rio9_ask_of(display, RIO9_CLEAR_MARKS, 0, NULL, 0, NULL, 0);
}

/* number, other: where the mouse was last, in pixels, each to be read as an int64_t. [DONE, NOTHING] */
static inline rio9_result rio9_pointer(rio9 *display) {
	return rio9_ask_of(display, RIO9_POINTER, 0, NULL, 0, NULL, 0);
}

/* number, other: the width and the height, in pixels. [DONE] */
static inline rio9_result rio9_size(rio9 *display) {
	return rio9_ask_of(display, RIO9_SIZE, 0, NULL, 0, NULL, 0);
}

/* The record of the entries that are stored, which `rio9 replay` reads. [DONE] */
static inline rio9_result rio9_record(rio9 *display, void *output, size_t room) {
	return rio9_ask_of(display, RIO9_RECORD, 0, NULL, 0, output, room);
}

/* Forgets the entries that are stored, which otherwise grow with each call that makes one. [DONE] */
static inline rio9_result rio9_forget(rio9 *display) {
	return rio9_ask_of(display, RIO9_FORGET, 0, NULL, 0, NULL, 0);
}

/* number: how many entries the history has; other: how many of them are stored. [DONE] */
static inline rio9_result rio9_entries(rio9 *display) {
	return rio9_ask_of(display, RIO9_ENTRIES, 0, NULL, 0, NULL, 0);
}

/* Makes the events of a record behind those that were made. number: how many were made. [DONE, BAD_RECORD, LATE_RECORD, BAD_EVENT,
   FULL] */
static inline rio9_result rio9_load(rio9 *display, const void *record, size_t length) {
	return rio9_ask_of(display, RIO9_LOAD, 0, record, length, NULL, 0);
}

/* Makes the event of one line of a record, without the end of the line. The answer is the lines that `rio9 replay` writes for its replies.
   number: how many replies; other: 0, or 1 more than the mark that the event got because memory ran out. [DONE, BAD_RECORD, BAD_EVENT,
   FULL] */
static inline rio9_result rio9_event(rio9 *display, const void *line, size_t length, void *output, size_t room) {
	return rio9_ask_of(display, RIO9_EVENT, 0, line, length, output, room);
}

/* The bytes of the last answer, from a place on. length: how many the whole answer has. [DONE] */
static inline rio9_result rio9_again(rio9 *display, uint64_t place, void *output, size_t room) {
	rio9_request request = {RIO9_AGAIN, (uint32_t)place, (uint32_t)(place >> 32), 0, 0};
	return rio9_ask(display, request, NULL, 0, output, room);
}

/* A status in a few words. */
static inline const char *rio9_status_text(uint32_t status) {
	switch (status) {
	case RIO9_DONE: return "done";
	case RIO9_MEMORY: return "no memory";
	case RIO9_CROWDED: return "too many sessions";
	case RIO9_CLOSED: return "the session is closed";
	case RIO9_DUPLICATE: return "the tag is in use, and the session is closed";
	case RIO9_NOTHING: return "nothing waits";
	case RIO9_OVER: return "nothing waits, and nothing more will come";
	case RIO9_BAD_RECTANGLE: return "the rectangle is empty or not within the display";
	case RIO9_BAD_RECORD: return "the input is no record";
	case RIO9_LATE_RECORD: return "the input is a later part of a record";
	case RIO9_BAD_EVENT: return "the event may not come next";
	case RIO9_FULL: return "the history is full";
	case RIO9_BAD_OPERATION: return "no such operation";
	case RIO9_BAD_SIZE: return "a side is not 1 to 2048";
	case RIO9_BAD_CHANNELS: return "no such channels";
	case RIO9_NULL: return "a pointer is null";
	case RIO9_SHORT: return "the output is too short";
	default: return "no such status";
	}
}

#ifdef __cplusplus
}
#endif
#endif
