/* times ROUNDS: what pixman, memset, memmove and memcpy take for pixels of 32 bits, in nanoseconds, the least of so many rounds. */
#include <pixman.h>
#include <stdint.h>
#include <stdio.h>
#include <stdlib.h>
#include <string.h>
#include <time.h>

enum { W = 640, H = 480, STRIP = 25, WINDOW_W = 200, WINDOW_H = 150, SCROLLED = 13, LARGE = 9000000 };

static uint32_t *screen, *other, *window;
static char *large, *copied;
static pixman_image_t *target, *source;

static void *room(size_t size) { void *p = aligned_alloc(64, (size + 63) / 64 * 64); if(!p) exit(2); memset(p, 1, size); return p; }

static void over(void) { pixman_image_composite32(PIXMAN_OP_OVER, source, NULL, target, 0, 0, 0, 0, 0, 0, W, H); }
static void fill(void) { memset(screen, 0x33, 4*W*H); }
static void scroll(void) { memmove(screen, screen + SCROLLED*W, 4*W*(H - SCROLLED)); }
static void copy(void) { memcpy(screen, other, 4*W*H); }
static void strip(void) { memcpy(screen, other, 4*W*STRIP); }
static void window_pixels(void) { for(int y = 0; y < WINDOW_H; y++) memcpy(window + y*WINDOW_W, screen + y*W, 4*WINDOW_W); }
static void large_copy(void) { memcpy(copied, large, LARGE); }

static struct { const char *name; void (*run)(void); int times; } kinds[] = {
	{ "over", over, 4 },
	{ "fill", fill, 20 },
	{ "scroll", scroll, 10 },
	{ "copy", copy, 10 },
	{ "strip", strip, 200 },
	{ "window", window_pixels, 100 },
	{ "large", large_copy, 2 },
};

static double now(void) { struct timespec t; clock_gettime(CLOCK_MONOTONIC, &t); return t.tv_sec*1e9 + t.tv_nsec; }

int main(int argc, char **argv)
{
	int rounds = argc > 1 ? atoi(argv[1]) : 101;
	screen = room(4*W*H); other = room(4*W*H); window = room(4*WINDOW_W*WINDOW_H); large = room(LARGE); copied = room(LARGE);
	for(int i = 0; i < W*H; i++) other[i] = 2654435761u*i;
	target = pixman_image_create_bits(PIXMAN_x8r8g8b8, W, H, screen, 4*W);
	source = pixman_image_create_bits(PIXMAN_a8r8g8b8, W, H, other, 4*W);
	for(size_t k = 0; k < sizeof kinds/sizeof *kinds; k++){
		double least = 1e300;
		for(int round = 0; round < rounds; round++){
			double begun = now();
			for(int i = 0; i < kinds[k].times; i++) kinds[k].run();
			double took = (now() - begun)/kinds[k].times;
			if(took < least) least = took;
		}
		printf("%s %.0f\n", kinds[k].name, least);
	}
	return 0;
}
