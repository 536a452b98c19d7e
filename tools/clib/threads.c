/* threads.c: two displays in two threads answer as one does alone. */
#include "client.h"
#include <pthread.h>

enum { TURNS = 2000, ROOM = 1 << 22 };

/* What a display gave: its record and its picture. */
typedef struct given {
	uint8_t *record;
	size_t record_length;
	uint8_t rows[160 * 120 * 4];
} given;

static void *draw(void *to) {
	given *all = to;
	client *c = calloc(1, sizeof *c);
	rio9 *display;
	if (!c || rio9_open(160, 120, (const uint8_t *)"x8r8g8b8", 8, &display) != RIO9_DONE)
		exit(1);
	attach(c, display, "new -r 10 10 150 110");
	open_window(c);
	start_write(c, 2), put_colour(c, 2, 0x00aa00ff), put_colour(c, 3, 0xaa0000ff), ask_write(c);
	for (int turn = 0; turn < TURNS; turn++) {
		int x = 20 + turn * 7 % 100, y = 20 + turn * 3 % 70;
		start_write(c, 2), put_fill(c, 1, (uint32_t)(2 + turn % 2), x, y, x + 10, y + 10), ask_write(c);
	}
	all->record = malloc(ROOM);
	all->record_length = rio9_record(display, all->record, ROOM).length;
	if (rio9_rows(display, 0, 0, 160, 120, all->rows, sizeof all->rows).status != RIO9_DONE)
		exit(1);
	rio9_close(display);
	free(c);
	return NULL;
}

static int are_same(const given *a, const given *b) {
	return a->record_length == b->record_length && memcmp(a->record, b->record, a->record_length) == 0 &&
	       memcmp(a->rows, b->rows, sizeof a->rows) == 0;
}

int main(void) {
	static given alone, first, second;
	pthread_t threads[2];
	draw(&alone);
	if (pthread_create(&threads[0], NULL, draw, &first) || pthread_create(&threads[1], NULL, draw, &second))
		return 1;
	pthread_join(threads[0], NULL);
	pthread_join(threads[1], NULL);
	int same = are_same(&alone, &first) && are_same(&alone, &second);
	printf("two displays in two threads, %zu bytes of record each: %s\n", alone.record_length, same ? "as alone" : "otherwise");
	free(alone.record), free(first.record), free(second.record);
	return !same;
}
