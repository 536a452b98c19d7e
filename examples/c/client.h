/* client.h: a session of a display, and the 9P (intro(5)) and draw (draw(3)) messages that the examples send. */
#ifndef CLIENT_H
#define CLIENT_H

#include "rio9.h"
#include <stdio.h>
#include <stdlib.h>
#include <string.h>

enum { TVERSION = 100, TATTACH = 104, TWALK = 110, TOPEN = 112, TREAD = 116, TWRITE = 118 };
enum { OPEN_READ = 0, OPEN_BOTH = 2 };
enum { HEADER = 7, MOST = 8192 };

/* A session, the message that it writes next, and the reply that it got last. */
typedef struct client {
	rio9 *display;
	uint32_t session;
	uint8_t message[MOST];
	size_t length;
	uint8_t reply[MOST];
	size_t reply_length;
} client;

static void fail(const char *what, uint32_t status) {
	fprintf(stderr, "%s: %s\n", what, rio9_status_text(status));
	exit(1);
}

static void put1(client *c, uint32_t n) { c->message[c->length++] = (uint8_t)n; }
static void put2(client *c, uint32_t n) { put1(c, n), put1(c, n >> 8); }
static void put4(client *c, uint32_t n) { put2(c, n), put2(c, n >> 16); }
static void put_bytes(client *c, const void *bytes, size_t n) { memcpy(c->message + c->length, bytes, n), c->length += n; }
static void put_text(client *c, const char *text) { put2(c, (uint32_t)strlen(text)), put_bytes(c, text, strlen(text)); }

/* Begins a message of a kind. */
static void start(client *c, uint8_t kind) {
	c->length = 4;
	put1(c, kind);
	put2(c, kind == TVERSION ? 0xffff : 0);
}

/* Ends the message, sends it, and wants the reply of its kind. */
static void ask(client *c) {
	uint32_t size = (uint32_t)c->length;
	for (int i = 0; i < 4; i++)
		c->message[i] = (uint8_t)(size >> 8 * i);
	rio9_result result = rio9_exchange(c->display, c->session, c->message, c->length, c->reply, sizeof c->reply);
	if (result.status != RIO9_DONE)
		fail("a message", result.status);
	c->reply_length = result.length;
	if (c->reply[4] != c->message[4] + 1) {
		fprintf(stderr, "a reply: %.*s\n", (int)c->reply_length - HEADER - 2, c->reply + HEADER + 2);
		exit(1);
	}
}

/* Begins a session, agrees on a version, and attaches fid 0: to the whole display, or to a new window as `new -r 20 20 140 100`. */
static void attach(client *c, rio9 *display, const char *where) {
	c->display = display;
	rio9_result begun = rio9_begin(display);
	if (begun.status != RIO9_DONE)
		fail("a session", begun.status);
	c->session = (uint32_t)begun.number;
	start(c, TVERSION), put4(c, MOST), put_text(c, "9P2000"), ask(c);
	start(c, TATTACH), put4(c, 0), put4(c, 0xffffffff), put_text(c, "glenda"), put_text(c, where), ask(c);
}

/* Walks from the root to a path, whose names are parted by `/`, and opens it as a fid. */
static void open_file(client *c, uint32_t fid, const char *path, uint8_t mode) {
	start(c, TWALK), put4(c, 0), put4(c, fid);
	size_t count = c->length, names = 0;
	put2(c, 0);
	while (*path) {
		size_t n = strcspn(path, "/");
		put2(c, (uint32_t)n), put_bytes(c, path, n), names++;
		path += n + (path[n] == '/');
	}
	c->message[count] = (uint8_t)names;
	ask(c);
	start(c, TOPEN), put4(c, fid), put1(c, mode), ask(c);
}

static void start_write(client *c, uint32_t fid) { start(c, TWRITE), put4(c, fid), put4(c, 0), put4(c, 0), put4(c, 0); }

/* Ends a write, whose length is what stands behind it, and sends it. */
static void ask_write(client *c) {
	uint32_t n = (uint32_t)(c->length - (HEADER + 16));
	for (int i = 0; i < 4; i++)
		c->message[HEADER + 12 + i] = (uint8_t)(n >> 8 * i);
	ask(c);
}

/* Reads a file from its start as a text of less than `room` bytes. */
static void read_text(client *c, uint32_t fid, char *text, uint32_t room) {
	start(c, TREAD), put4(c, fid), put4(c, 0), put4(c, 0), put4(c, room - 1), ask(c);
	size_t n = c->reply_length - (HEADER + 4);
	memcpy(text, c->reply + HEADER + 4, n);
	text[n] = 0;
}

static void put_rectangle(client *c, int x0, int y0, int x1, int y1) {
	put4(c, (uint32_t)x0), put4(c, (uint32_t)y0), put4(c, (uint32_t)x1), put4(c, (uint32_t)y1);
}

/* `b`: an image of one pixel of a colour (0xRRGGBBAA) that repeats everywhere. Its channels are r8g8b8a8. */
static void put_colour(client *c, uint32_t id, uint32_t colour) {
	put1(c, 'b'), put4(c, id), put4(c, 0), put1(c, 0), put4(c, 0x08182848), put1(c, 1);
	put_rectangle(c, 0, 0, 1, 1), put_rectangle(c, -0x3fffffff, -0x3fffffff, 0x3fffffff, 0x3fffffff);
	put4(c, colour);
}

/* `d`: a colour over a rectangle of an image. */
static void put_fill(client *c, uint32_t image, uint32_t colour, int x0, int y0, int x1, int y1) {
	put1(c, 'd'), put4(c, image), put4(c, colour), put4(c, colour);
	put_rectangle(c, x0, y0, x1, y1), put4(c, 0), put4(c, 0), put4(c, 0), put4(c, 0);
}

/* Opens a draw connection as fid 1 (draw/new), its data as fid 2, and the image of the window by its name as image 1. */
static void open_window(client *c) {
	char path[32], number[256], name[32];
	open_file(c, 1, "draw/new", OPEN_BOTH);
	read_text(c, 1, number, sizeof number);
	snprintf(path, sizeof path, "draw/%d/data", atoi(number));
	open_file(c, 2, path, OPEN_BOTH);
	open_file(c, 3, "winname", OPEN_READ);
	read_text(c, 3, name, sizeof name);
	start_write(c, 2);
	put1(c, 'n'), put4(c, 1), put1(c, (uint32_t)strlen(name)), put_bytes(c, name, strlen(name));
	ask_write(c);
}

#endif
