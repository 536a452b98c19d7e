/* times ROUNDS: the pixel calls beside pixman, plain C, memset and memcpy, on the same buffers of 1000 by 1000 pixels.
 * Each round runs each candidate twice and times the second run; the least time of a candidate counts. First every operator is compared with
 * pixman's result. */
#define _POSIX_C_SOURCE 200809L
#include <pixman.h>
#include <stdbool.h>
#include <stdint.h>
#include <stdio.h>
#include <stdlib.h>
#include <string.h>
#include <time.h>

enum { W = 1000, H = 1000, N = W * H };
enum { RGBA = 0x08182848, ARGB = 0x48081828, XRGB = 0x68081828, K8 = 0x38, K1 = 0x31 };
enum { S = 10, SoverD = 11 };

extern void pixels_comp_row(uint8_t op, uint32_t *d, size_t dl, const uint32_t *s, size_t sl, const uint8_t *m, size_t ml);
extern void pixels_compose(uint32_t dst, uint32_t src, uint32_t mask, uint8_t op, uint32_t *d, size_t dl, const uint32_t *s, size_t sl, const uint32_t *m, size_t ml);
extern void pixels_fill(uint32_t dst, uint32_t src, uint32_t mask, uint8_t op, uint32_t *d, size_t dl, uint32_t s, uint32_t m);
extern void pixels_fill_rows(uint32_t dst, uint32_t src, uint32_t mask, uint8_t op, uint32_t *d, size_t dl, uint16_t width, uint32_t s, uint32_t m);
extern bool pixels_load(uint32_t chan, uint16_t width, uint16_t height, uint32_t times, const uint8_t *rows, size_t len);
extern bool pixels_unload(uint32_t chan, uint16_t width, uint16_t height, uint32_t times, uint8_t *rows, size_t len);

/* the operators by their numbers in draw(2) */
static const int operators[12] = {
	PIXMAN_OP_CLEAR, PIXMAN_OP_OUT_REVERSE, PIXMAN_OP_OUT, PIXMAN_OP_XOR, PIXMAN_OP_IN_REVERSE, PIXMAN_OP_DST,
	PIXMAN_OP_ATOP_REVERSE, PIXMAN_OP_OVER_REVERSE, PIXMAN_OP_IN, PIXMAN_OP_ATOP, PIXMAN_OP_SRC, PIXMAN_OP_OVER,
};

/* targets, sources as a8r8g8b8 and as r8g8b8a8, masks as bytes and as raw pixels, a copy */
static uint32_t *d, *argb, *rgba, *words, *copy;
static uint8_t *bytes;
static pixman_image_t *target, *source, *mask, *solid;
static const pixman_color_t colour = { 0x3333, 0x6666, 0x9999, 0xFFFF };

static void *room(size_t size) { void *p = aligned_alloc(64, (size + 63) / 64 * 64); if(!p) exit(2); memset(p, 0, size); return p; }
static unsigned rnd(void) { static unsigned long long x = 1; x = x*6364136223846793005ULL + 1442695040888963407ULL; return x >> 33; }
static double now(void) { struct timespec t; clock_gettime(CLOCK_MONOTONIC, &t); return t.tv_sec*1e3 + t.tv_nsec/1e6; }

static void pixman(int op, pixman_image_t *src, pixman_image_t *through) { pixman_image_composite32(operators[op], src, through, target, 0, 0, 0, 0, 0, 0, W, H); }

static uint32_t mul(uint32_t a, uint32_t b) { uint32_t t = a*b + 128; return (t + (t >> 8)) >> 8; }

/* SoverD of x8r8g8b8 from a8r8g8b8 through k8, component by component */
__attribute__((noinline)) static void plain(uint32_t *to, const uint32_t *from, const uint8_t *through, size_t n)
{
	for(size_t i = 0; i < n; i++){
		uint32_t rest = 255 - mul(from[i] >> 24, through[i]), pixel = 0;
		for(int k = 0; k < 24; k += 8){
			uint32_t v = mul(from[i] >> k & 255, through[i]) + mul(to[i] >> k & 255, rest);
			pixel |= (v > 255 ? 255 : v) << k;
		}
		to[i] = pixel;
	}
}

static void over_pixman(void) { pixman(SoverD, source, mask); }
static void over_row(void) { for(int y = 0; y < H; y++) pixels_comp_row(SoverD, d + y*W, W, rgba + y*W, W, bytes + y*W, W); }
static void over_compose(void) { for(int y = 0; y < H; y++) pixels_compose(XRGB, ARGB, K8, SoverD, d + y*W, W, argb + y*W, W, words + y*W, W); }
static void over_same(void) { for(int y = 0; y < H; y++) pixels_compose(RGBA, RGBA, K8, SoverD, d + y*W, W, rgba + y*W, W, words + y*W, W); }
static void over_plain(void) { for(int y = 0; y < H; y++) plain(d + y*W, argb + y*W, bytes + y*W, W); }
static void fill_pixman(void) { pixman(S, solid, NULL); }
static void fill_whole(void) { pixels_fill(XRGB, XRGB, K1, S, d, N, 0x336699, 1); }
static void fill_each(void) { pixels_fill_rows(XRGB, XRGB, K1, S, d, N, W, 0x336699, 1); }
static void fill_rows(void) { for(int y = 0; y < H; y++) memset(d + y*W, 0x33, 4*W); }
static void fill_memset(void) { memset(d, 0x33, 4*N); }
static void copy_memcpy(void) { memcpy(copy, d, 4*N); }

enum { TIMES = 4 };
static void none(void) { if(!pixels_load(XRGB, W, H, 0, (uint8_t*)d, 4*N)) exit(2); }
static void load(void) { if(!pixels_load(XRGB, W, H, TIMES, (uint8_t*)d, 4*N)) exit(2); }
static void unload(void) { if(!pixels_unload(XRGB, W, H, TIMES, (uint8_t*)copy, 4*N)) exit(2); }

static struct { const char *name; void (*run)(void); double least; } list[] = {
	{ "pixman, SoverD", over_pixman },
	{ "comp_row, SoverD", over_row },
	{ "compose, SoverD x8r8g8b8 from a8r8g8b8, k8", over_compose },
	{ "compose, SoverD r8g8b8a8 from r8g8b8a8, k8", over_same },
	{ "plain C, SoverD", over_plain },
	{ "pixman, S of one colour", fill_pixman },
	{ "fill, S of one colour, all", fill_whole },
	{ "solid, then rows of 1000", fill_each },
	{ "memset, rows of 1000", fill_rows },
	{ "memset, all", fill_memset },
	{ "memcpy", copy_memcpy },
	{ "Plane::new", none },
	{ "Plane::new, 4 loads", load },
	{ "Plane::new, 4 unloads", unload },
};
enum { COUNT = sizeof list / sizeof *list };

static double of(const char *name) { for(int i = 0; i < COUNT; i++) if(!strcmp(list[i].name, name)) return list[i].least; exit(2); }
static void ratio(const char *what, double time, double to, double goal) { printf("%-52s %.2f (goal %.2f)%s\n", what, time/to, goal, time/to > goal ? "  MISSED" : ""); }

static void compare(void)
{
	for(int op = 0; op < 12; op++){
		for(int i = 0; i < N; i++) d[i] = copy[i] = rnd() & 0xFFFFFF;
		pixman(op, source, mask);
		for(int y = 0; y < H; y++) pixels_compose(XRGB, ARGB, K8, op, copy + y*W, W, argb + y*W, W, words + y*W, W);
		for(int i = 0; i < N; i++) if((d[i] & 0xFFFFFF) != copy[i]){ printf("WRONG: operator %d: %06x, pixman %06x\n", op, copy[i], d[i] & 0xFFFFFF); exit(1); }
	}
	printf("all operators as pixman, %d pixels each\n", N);
}

int main(int argc, char **argv)
{
	int rounds = argc > 1 ? atoi(argv[1]) : 101;
	d = room(4*N); argb = room(4*N); rgba = room(4*N); words = room(4*N); copy = room(4*N); bytes = room(N);
	for(int i = 0; i < N; i++){
		uint32_t a = rnd() & 255;
		argb[i] = a << 24 | rnd() % (a + 1) << 16 | rnd() % (a + 1) << 8 | rnd() % (a + 1);
		rgba[i] = argb[i] << 8 | a;
		words[i] = bytes[i] = rnd();
	}
	target = pixman_image_create_bits(PIXMAN_x8r8g8b8, W, H, d, 4*W);
	source = pixman_image_create_bits(PIXMAN_a8r8g8b8, W, H, argb, 4*W);
	mask = pixman_image_create_bits(PIXMAN_a8, W, H, (uint32_t*)bytes, W);
	solid = pixman_image_create_solid_fill(&colour);
	compare();
	for(int n = 0; n < rounds; n++) for(int i = 0; i < COUNT; i++){
		list[i].run();
		double t = now();
		list[i].run();
		t = now() - t;
		if(n == 0 || t < list[i].least) list[i].least = t;
	}
	for(int i = 0; i < COUNT; i++) printf("%-52s %.3f ms\n", list[i].name, list[i].least);
	printf("\n");
	ratio("comp_row to pixman", of("comp_row, SoverD"), of("pixman, SoverD"), 1);
	ratio("compose to pixman", of("compose, SoverD x8r8g8b8 from a8r8g8b8, k8"), of("pixman, SoverD"), 1.5);
	ratio("fill to memset, all in one call", of("fill, S of one colour, all"), of("memset, all"), 1.3);
	ratio("solid and rows to memset, rows of 1000", of("solid, then rows of 1000"), of("memset, rows of 1000"), 1.3);
	ratio("load to memcpy", (of("Plane::new, 4 loads") - of("Plane::new"))/TIMES, of("memcpy"), 1.5);
	ratio("unload to memcpy", (of("Plane::new, 4 unloads") - of("Plane::new"))/TIMES, of("memcpy"), 1.5);
	return 0;
}
