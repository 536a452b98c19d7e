/* statuses.c: each status of the header comes where the header says, and the numbers and bytes of answers are those that the manual
   pages and docs/FORMATS.md give. */
#include "rio9.h"
#include <stdio.h>
#include <string.h>

static int wrong;

static void want(const char *what, uint64_t found, uint64_t wanted) {
	if (found != wanted)
		printf("%s: %lu, wanted %lu\n", what, (unsigned long)found, (unsigned long)wanted), wrong++;
}

static void want_bytes(const char *what, const uint8_t *found, const char *wanted, size_t n) {
	if (memcmp(found, wanted, n) != 0)
		printf("%s: other bytes\n", what), wrong++;
}

static const char VERSION[] = "\x13\0\0\0\x64\xff\xff\x18\0\x01\0\x06\0" "9P2000";
static const char VERSION_REPLY[] = "\x13\0\0\0\x65\xff\xff\x18\0\x01\0\x06\0" "9P2000";
static const char RECORD[] = "rio9 1\nB 1\nM 1 1300000064ffff180001000600395032303030\n";
static uint8_t out[65536];

static uint32_t open_status(uint32_t width, uint32_t height, const char *channels) {
	rio9 *display = NULL;
	uint32_t status = rio9_open(width, height, (const uint8_t *)channels, strlen(channels), &display);
	if (status == RIO9_DONE)
		rio9_close(display);
	return status;
}

static void look_at_open(void) {
	want("a display", open_status(1, 2048, "r8g8b8"), RIO9_DONE);
	want("no width", open_status(0, 1, "k1"), RIO9_BAD_SIZE);
	want("too high", open_status(1, 2049, "k1"), RIO9_BAD_SIZE);
	want("no channels", open_status(1, 1, "x8r8g8b9"), RIO9_BAD_CHANNELS);
	want("no text", open_status(1, 1, "\xff"), RIO9_BAD_CHANNELS);
}

static void look_at_null(rio9 *display) {
	want("no display", rio9_begin(NULL).status, RIO9_NULL);
	want("no message", rio9_message(display, 1, NULL, 7).status, RIO9_NULL);
	want("no output", rio9_screen(display, NULL, 60).status, RIO9_NULL);
	want("no bytes", rio9_waiting(display, 1).status, RIO9_DONE);
}

static void look_at_session(rio9 *display) {
	rio9_result begun = rio9_begin(display);
	want("a session", begun.status, RIO9_DONE);
	want("its number", begun.number, 1);
	want("nothing", rio9_take(display, 1, out, sizeof out).status, RIO9_NOTHING);
	rio9_result heard = rio9_message(display, 1, VERSION, 19);
	want("a version", heard.status, RIO9_DONE);
	want("the msize", heard.number, 65560);
	want("what waits", rio9_waiting(display, 1).number, 19);
	rio9_result taken = rio9_take(display, 1, out, 7);
	want("a short take", taken.status, RIO9_SHORT);
	want("its length", taken.length, 19);
	want_bytes("its front", out, VERSION_REPLY, 7);
	want("the rest", rio9_again(display, 7, out, sizeof out).status, RIO9_DONE);
	want_bytes("its bytes", out, VERSION_REPLY + 7, 12);
	want("behind the end", rio9_again(display, (uint64_t)1 << 40, out, sizeof out).status, RIO9_DONE);
	want("an exchange", rio9_exchange(display, 1, VERSION, 19, out, sizeof out).status, RIO9_DONE);
	want("no session", rio9_message(display, 9, VERSION, 19).status, RIO9_CLOSED);
	want("no message", rio9_message(display, 1, "\x08\0\0\0\x64\0\0", 7).status, RIO9_CLOSED);
	want("the end", rio9_end(display, 1).status, RIO9_DONE);
	want("no such session", rio9_end(display, 1).status, RIO9_CLOSED);
}

static void send(rio9 *display, const char *what, const char *message, size_t n, uint32_t wanted) {
	want(what, rio9_exchange(display, 2, message, n, out, sizeof out).status, wanted);
}

/* A read of the mouse waits, and a second one with its tag closes the session. */
static void look_at_duplicate(rio9 *display) {
	static const char READ[] = "\x17\0\0\0\x74\4\0\1\0\0\0\0\0\0\0\0\0\0\0\x31\0\0\0";
	want("a second session", rio9_begin(display).number, 2);
	send(display, "a version", VERSION, 19, RIO9_DONE);
	send(display, "a window", "\x23\0\0\0\x68\1\0\0\0\0\0\xff\xff\xff\xff\0\0\x10\0new -r 1 1 40 40", 35, RIO9_DONE);
	send(display, "a walk", "\x18\0\0\0\x6e\1\0\0\0\0\0\1\0\0\0\1\0\5\0mouse", 24, RIO9_DONE);
	send(display, "the mouse", "\x0c\0\0\0\x70\1\0\1\0\0\0\0", 12, RIO9_DONE);
	send(display, "a read", READ, 23, RIO9_NOTHING);
	rio9_result twice = rio9_message(display, 2, READ, 23);
	want("the same tag", twice.status, RIO9_DUPLICATE);
	want("that tag", twice.number, 4);
	want("no more", rio9_take(display, 2, out, sizeof out).status, RIO9_OVER);
}

static void look_at_picture(rio9 *display) {
	rio9_result size = rio9_size(display);
	want("the width", size.number, 64);
	want("the height", size.other, 48);
	want("no mouse", rio9_pointer(display).status, RIO9_NOTHING);
	want("a screen", rio9_screen(display, out, sizeof out).length, 60 + 64 * 48 * 4);
	want_bytes("its channels", out, "   x8r8g8b8 ", 12);
	want("rows", rio9_rows(display, 63, 47, 64, 48, out, sizeof out).status, RIO9_DONE);
	want_bytes("the grey of rio", out, "\x77\x77\x77\0", 4);
	want("no point", rio9_rows(display, 5, 5, 5, 6, out, sizeof out).status, RIO9_BAD_RECTANGLE);
	want("beside it", rio9_rows(display, 0, 0, 65, 48, out, sizeof out).status, RIO9_BAD_RECTANGLE);
	want("no marks", rio9_clear_marks(display).status, RIO9_DONE);
	rio9_result marks = rio9_marks(display, out, sizeof out);
	want("across", marks.number, 2);
	want("down", marks.other, 2);
	want_bytes("the marks", out, "\0\0\0\0", 4);
}

static void look_at_record(rio9 *display) {
	uint64_t before = rio9_entries(display).number;
	want("forgotten", rio9_forget(display).status, RIO9_DONE);
	want("the entries", rio9_entries(display).number, before);
	want("those that are stored", rio9_entries(display).other, 0);
	want("no record", rio9_load(display, "rio9 1\nQ 1\n", 11).status, RIO9_BAD_RECORD);
	want("its place", rio9_load(display, "rio9 1\nQ 1\n", 11).number, 7);
	want("a late record", rio9_load(display, "rio9 2 7\nB 9\n", 13).status, RIO9_LATE_RECORD);
	want("its entry", rio9_load(display, "rio9 2 7\nB 9\n", 13).number, 7);
	want("no event", rio9_event(display, "Q", 1, out, sizeof out).status, RIO9_BAD_RECORD);
	want("an event that may not come", rio9_event(display, "B 7", 3, out, sizeof out).status, RIO9_BAD_EVENT);
}

static void look_at_load(void) {
	rio9 *display;
	want("a display", rio9_open(64, 48, (const uint8_t *)"x8r8g8b8", 8, &display), RIO9_DONE);
	rio9_result loaded = rio9_load(display, RECORD, sizeof RECORD - 1);
	want("a record", loaded.status, RIO9_DONE);
	want("its events", loaded.number, 2);
	rio9_result event = rio9_event(display, "E 1", 3, out, sizeof out);
	want("an event", event.status, RIO9_DONE);
	want("no reply", event.number, 0);
	rio9_result record = rio9_record(display, out, sizeof out);
	want("the record", record.length, sizeof RECORD - 1 + 4 + 2);
	want_bytes("its last line", out + record.length - 4, "E 1\n", 4);
	rio9_request request = {99, 0, 0, 0, 0};
	want("no operation", rio9_ask(display, request, NULL, 0, NULL, 0).status, RIO9_BAD_OPERATION);
	rio9_close(display);
}

int main(void) {
	rio9 *display;
	look_at_open();
	want("a display", rio9_open(64, 48, (const uint8_t *)"x8r8g8b8", 8, &display), RIO9_DONE);
	look_at_null(display);
	look_at_session(display);
	look_at_duplicate(display);
	look_at_picture(display);
	look_at_record(display);
	rio9_close(display);
	look_at_load();
	printf("%d answers are wrong\n", wrong);
	return wrong != 0;
}
