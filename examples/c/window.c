/* window.c: a client makes a window and draws in it; the picture goes to standard output as a PPM file.

   cc $(pkg-config --cflags rio9) window.c $(pkg-config --libs rio9) -o window && ./window > picture.ppm */
#include "client.h"

enum { WIDTH = 160, HEIGHT = 120 };

/* Draws a blue square in the window. Its points are those of the display. */
static void draw_square(client *c) {
	open_window(c);
	start_write(c, 2);
	put_colour(c, 2, 0x0000ffff), put_fill(c, 1, 2, 60, 45, 100, 75);
	ask_write(c);
}

/* The rows of the display have blue, green, red and 0 for each pixel. */
static void write_picture(rio9 *display) {
	static uint8_t rows[WIDTH * HEIGHT * 4];
	rio9_result result = rio9_rows(display, 0, 0, WIDTH, HEIGHT, rows, sizeof rows);
	if (result.status != RIO9_DONE)
		fail("the rows", result.status);
	printf("P6\n%d %d\n255\n", WIDTH, HEIGHT);
	for (const uint8_t *pixel = rows; pixel < rows + sizeof rows; pixel += 4)
		putchar(pixel[2]), putchar(pixel[1]), putchar(pixel[0]);
}

int main(void) {
	static client c;
	rio9 *display;
	uint32_t status = rio9_open(WIDTH, HEIGHT, (const uint8_t *)"x8r8g8b8", 8, &display);
	if (status != RIO9_DONE)
		fail("the display", status);
	attach(&c, display, "new -r 20 20 140 100");
	draw_square(&c);
	write_picture(display);
	rio9_close(display);
	return 0;
}
