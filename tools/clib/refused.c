/* refused.c: lets each allocation of a session fail in turn, one in each run. Each call then gives a status, nothing ends the program, and
   nothing is lost. It is linked with -Wl,--wrap=malloc,--wrap=realloc,--wrap=free. */
#include "rio9.h"
#include <stdio.h>
#include <stdlib.h>

static long left, held, asked;
static int told[RIO9_SHORT + 1];
static uint8_t out[1 << 16];

void *__real_malloc(size_t n);
void *__real_realloc(void *block, size_t n);
void __real_free(void *block);

/* Whether this one of the allocations is refused. */
static int is_refused(void) {
	asked++;
	return left && !--left;
}

void *__wrap_malloc(size_t n) {
	void *block = is_refused() ? NULL : __real_malloc(n);
	held += block != NULL;
	return block;
}

void *__wrap_realloc(void *block, size_t n) { return is_refused() ? NULL : __real_realloc(block, n); }

void __wrap_free(void *block) {
	held -= block != NULL;
	__real_free(block);
}

static void note(rio9_result result) { told[result.status <= RIO9_SHORT ? result.status : RIO9_BAD_OPERATION]++; }

static void send(rio9 *display, uint32_t session, const char *message, size_t n) {
	note(rio9_exchange(display, session, message, n, out, sizeof out));
}

static void ask_all(rio9 *display, uint32_t session) {
	send(display, session, "\x13\0\0\0\x64\xff\xff\x18\0\x01\0\x06\0" "9P2000", 19);
	send(display, session, "\x13\0\0\0\x68\0\0\0\0\0\0\xff\xff\xff\xff\0\0\0\0", 19);
	send(display, session, "\x17\0\0\0\x6e\0\0\0\0\0\0\x01\0\0\0\x01\0\x04\0wctl", 23);
	send(display, session, "\x0c\0\0\0\x70\0\0\x01\0\0\0\x01", 12);
	send(display, session, "\x24\0\0\0\x76\0\0\x01\0\0\0\0\0\0\0\0\0\0\0\x0d\0\0\0new -r 1 1 9 9", 36);
	note(rio9_message(display, session, "\x0b\0\0\0\x7c\0\0\0\0\0\0", 11));
	note(rio9_waiting(display, session));
	note(rio9_take(display, session, out, sizeof out));
	note(rio9_screen(display, out, sizeof out));
	note(rio9_rows(display, 0, 0, 8, 8, out, sizeof out));
	note(rio9_marks(display, out, sizeof out));
	note(rio9_clear_marks(display));
	note(rio9_pointer(display));
	note(rio9_size(display));
	note(rio9_record(display, out, sizeof out));
	note(rio9_again(display, 3, out, sizeof out));
	note(rio9_entries(display));
	note(rio9_event(display, "T 1", 3, out, sizeof out));
	note(rio9_load(display, "rio9 1\nB 2\n", 11));
	note(rio9_forget(display));
	note(rio9_end(display, session));
}

static void run(void) {
	rio9 *display;
	uint32_t status = rio9_open(64, 48, (const uint8_t *)"x8r8g8b8", 8, &display);
	told[status]++;
	if (status != RIO9_DONE)
		return;
	note(rio9_begin(display));
	ask_all(display, 1);
	rio9_close(display);
}

int main(void) {
	run();
	long most = asked, lost = held;
	printf("%ld allocations; none refused:", most);
	for (int i = 0; i <= RIO9_SHORT; i++)
		if (told[i])
			printf(" %d %s;", told[i], rio9_status_text((uint32_t)i));
	int bad = told[RIO9_MEMORY] + told[RIO9_BAD_OPERATION] + told[RIO9_NULL];
	for (long n = 1; n <= most; n++) {
		left = n;
		run();
		left = 0;
		lost += held;
	}
	printf("\neach refused once: %d times no memory; %ld blocks lost\n", told[RIO9_MEMORY], lost);
	return bad || lost || told[RIO9_MEMORY] < most / 2 || told[RIO9_BAD_OPERATION] || told[RIO9_NULL];
}
