/* many.c CALLS: so many calls of a session that draws; the record is forgotten after each thousand. Prints how many bytes of the heap are in
   use after a tenth of them and at the end, which are the same. */
#include "client.h"
#include <malloc.h>

static void draw(client *c, int turn) {
	int x = 20 + turn % 60, y = 20 + turn / 7 % 40;
	start_write(c, 2), put_fill(c, 1, 2, x, y, x + 10, y + 10), ask_write(c);
}

int main(int argc, char **argv) {
	static client c;
	long calls = argc > 1 ? atol(argv[1]) : 1000000;
	size_t early = 0;
	rio9 *display;
	if (rio9_open(160, 120, (const uint8_t *)"x8r8g8b8", 8, &display) != RIO9_DONE)
		return 1;
	attach(&c, display, "new -r 10 10 150 110");
	open_window(&c);
	start_write(&c, 2), put_colour(&c, 2, 0x00aa00ff), ask_write(&c);
	for (long call = 0; call < calls; call++) {
		if (call % 1000 == 0)
			rio9_forget(display);
		if (call == calls / 10 / 1000 * 1000)
			early = mallinfo2().uordblks;
		draw(&c, (int)(call % 1000));
	}
	rio9_forget(display);
	size_t late = mallinfo2().uordblks;
	printf("%ld calls; %zu bytes in use after a tenth, %zu at the end\n", calls, early, late);
	rio9_close(display);
	return late > early + 65536;
}
