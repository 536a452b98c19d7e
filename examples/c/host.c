/* host.c: a program that holds a display with two clients and shows it in a window of SDL2. After each turn it takes from the display only
   the cells that changed. `./host TURNS` ends by itself, after it has compared its picture with the whole display.

   cc $(pkg-config --cflags rio9 sdl2) host.c $(pkg-config --libs rio9 sdl2) -o host && ./host */
#include "client.h"
#include <SDL2/SDL.h>

enum { WIDTH = 640, HEIGHT = 480, CELL = 32, ACROSS = WIDTH / CELL, DOWN = HEIGHT / CELL };

static uint8_t picture[HEIGHT][WIDTH][4];

/* A client with a window, white and a colour. */
static void join_display(client *c, rio9 *display, const char *where, uint32_t colour) {
	attach(c, display, where);
	open_window(c);
	start_write(c, 2), put_colour(c, 2, 0xffffffff), put_colour(c, 3, colour), ask_write(c);
}

/* Moves a client's square from one place to another. */
static void move_square(client *c, int x, int y, int to_x, int to_y) {
	start_write(c, 2);
	put_fill(c, 1, 2, x, y, x + 40, y + 40), put_fill(c, 1, 3, to_x, to_y, to_x + 40, to_y + 40);
	ask_write(c);
}

/* Takes a cell of the display into the picture, and the texture. */
static void take_cell(rio9 *display, SDL_Texture *texture, int column, int row) {
	uint8_t rows[CELL * CELL * 4];
	SDL_Rect cell = {column * CELL, row * CELL, CELL, CELL};
	rio9_result result =
	    rio9_rows(display, (uint32_t)cell.x, (uint32_t)cell.y, (uint32_t)(cell.x + CELL), (uint32_t)(cell.y + CELL), rows, sizeof rows);
	if (result.status != RIO9_DONE)
		fail("a cell", result.status);
	for (int y = 0; y < CELL; y++)
		memcpy(picture[cell.y + y][cell.x], rows + y * CELL * 4, CELL * 4);
	SDL_UpdateTexture(texture, &cell, rows, CELL * 4);
}

/* Takes the cells that changed, and gives how many. */
static int take_changes(rio9 *display, SDL_Texture *texture) {
	uint8_t marks[ACROSS * DOWN];
	int changed = 0;
	rio9_result result = rio9_marks(display, marks, sizeof marks);
	if (result.status != RIO9_DONE)
		fail("the marks", result.status);
	rio9_clear_marks(display);
	for (int cell = 0; cell < ACROSS * DOWN; cell++)
		if (marks[cell])
			take_cell(display, texture, cell % ACROSS, cell / ACROSS), changed++;
	return changed;
}

static int has_whole_display(rio9 *display) {
	static uint8_t rows[WIDTH * HEIGHT * 4];
	rio9_result result = rio9_rows(display, 0, 0, WIDTH, HEIGHT, rows, sizeof rows);
	return result.status == RIO9_DONE && memcmp(rows, picture, sizeof picture) == 0;
}

static int wants_to_quit(void) {
	SDL_Event event;
	while (SDL_PollEvent(&event))
		if (event.type == SDL_QUIT)
			return 1;
	return 0;
}

/* Lets both clients draw, and shows what changed, for so many turns, or until the window is closed if they are 0. */
static void run(rio9 *display, SDL_Renderer *renderer, SDL_Texture *texture, int turns) {
	static client left, right;
	int cells = 0, turn = 0;
	join_display(&left, display, "new -r 20 20 500 200", 0xcc0000ff);
	join_display(&right, display, "new -r 140 280 620 460", 0x0000ccff);
	for (int cell = 0; cell < ACROSS * DOWN; cell++)
		take_cell(display, texture, cell % ACROSS, cell / ACROSS);
	rio9_clear_marks(display);
	for (; (!turns || turn < turns) && !wants_to_quit(); turn++) {
		int at = turn * 4 % 400, to = (turn + 1) * 4 % 400;
		move_square(&left, 40 + at, 90, 40 + to, 90);
		move_square(&right, 560 - at, 350, 560 - to, 350);
		cells += take_changes(display, texture);
		rio9_forget(display);
		SDL_RenderCopy(renderer, texture, NULL, NULL);
		SDL_RenderPresent(renderer);
		SDL_Delay(turns ? 0 : 20);
	}
	printf("%d turns, %d of %d cells taken, the picture is %s\n", turn, cells, turn * ACROSS * DOWN,
	    has_whole_display(display) ? "the display" : "another");
}

int main(int argc, char **argv) {
	rio9 *display;
	uint32_t status = rio9_open(WIDTH, HEIGHT, (const uint8_t *)"x8r8g8b8", 8, &display);
	if (status != RIO9_DONE)
		fail("the display", status);
	SDL_Window *window;
	SDL_Renderer *renderer;
	if (SDL_Init(SDL_INIT_VIDEO) || SDL_CreateWindowAndRenderer(WIDTH, HEIGHT, 0, &window, &renderer)) {
		fprintf(stderr, "SDL: %s\n", SDL_GetError());
		return 1;
	}
	SDL_Texture *texture = SDL_CreateTexture(renderer, SDL_PIXELFORMAT_RGB888, SDL_TEXTUREACCESS_STREAMING, WIDTH, HEIGHT);
	run(display, renderer, texture, argc > 1 ? atoi(argv[1]) : 0);
	rio9_close(display);
	SDL_Quit();
	return 0;
}
