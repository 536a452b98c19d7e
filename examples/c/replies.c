/* replies.c: makes the events of a record from standard input, one by one, and prints the replies to each, as `rio9 replay` does.

   ./replies [WIDTH HEIGHT] < examples/first.record */
#include "rio9.h"
#include <stdio.h>
#include <stdlib.h>
#include <string.h>

int main(int argc, char **argv) {
	uint32_t width = argc > 2 ? (uint32_t)atoi(argv[1]) : 640, height = argc > 2 ? (uint32_t)atoi(argv[2]) : 480;
	static char line[1 << 20], replies[1 << 20];
	rio9 *display;
	if (rio9_open(width, height, (const uint8_t *)"x8r8g8b8", 8, &display) != RIO9_DONE || !fgets(line, sizeof line, stdin))
		return 1;
	while (fgets(line, sizeof line, stdin)) {
		rio9_result result = rio9_event(display, line, strcspn(line, "\n"), replies, sizeof replies);
		if (result.status != RIO9_DONE) {
			fprintf(stderr, "%s%s\n", line, rio9_status_text(result.status));
			return 1;
		}
		fwrite(replies, 1, result.length, stdout);
	}
	rio9_close(display);
	return 0;
}
