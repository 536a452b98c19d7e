/*
 * What the parts of the program share. A row is a name and what was seen; tools/clients/run.py compares it with
 * tools/clients/expected.txt. A side is one of the two draw devices that the same calls are made on: rio9, reached by
 * the mount driver, and Plan 9's own, in this process.
 */
#include "u.h"
#include "lib.h"
#include "kern/dat.h"
#include "kern/fns.h"
#include "kern/error.h"
#include "user.h"
#define Image Dimage
#include <draw.h>
#include <memdraw.h>

typedef struct Side Side;
typedef struct Row Row;
typedef struct Words Words;
typedef struct Waiting Waiting;

struct Side {
    char *name;
    char *dev; /* the folder that has the file tree with draw/ */
    char *win; /* the folder of the window's files */
    char *winname; /* the file that has the name of the window's image, or = and the name */
    Display *d;
    Dimage *w; /* the window */
    Screen *s;
    Font *f;
    uchar *px; /* the pixels read back */
    int npx;
    int refusals;
    char err[ERRMAX];
    char note[400];
};
struct Row {
    char *name;
    void (*run)(Side *);
};
/* the words of the command line */
struct Words {
    char *address;
    char *folder;
    char *chan;
    Rectangle window;
    Point size;
    int deep;
    int count;
    int from;
    ulong seed;
    char *parts;
};
/* a read that waits in a process of its own */
struct Waiting {
    int fd;
    int n;
    volatile int opened;
    volatile int done;
    long k;
    char b[200];
    char e[ERRMAX];
};

enum { Big = 300 * 200 * 4 }; /* bytes that hold the pixels of the largest window that is read whole */

/* the host's side */
extern void hostputs(char *, int);
extern void hostexit(int);
extern uint hostusec(void);
/* the device's screen */
extern ulong gchan;
extern Point gsize;
extern void (*screenputs)(char *, int);
/* libdraw.c */
extern int ldrefusals;
extern char ldlast[];
extern Display *display;
extern Font *font;
/* rows.c */
extern Side rio9, device;
extern Side *me;
extern Words words;
extern void row(char *, char *, ...);
extern void note(char *, ...);
extern char *er(void);
extern void after(Dimage *);
extern void afters(Screen *);
extern void undo(void);
extern void use(Side *);
extern Dimage *col(Display *, ulong);
extern Rectangle rct(Side *, int, int, int, int);
extern Point at(Side *, int, int);
extern int begin(Side *);
extern char *compared(void);
extern void readback(Side *);
extern void keep(char *);
extern void rows(Row *);
extern int has(char *);
/* files.c */
extern int mnt(char *, char *);
extern long rd(char *, char *, int);
extern long wr(char *, char *);
extern void shot(char *);
extern void writefiles(void);
extern char *innermost(char *, int, int);
/* the rows of each part */
extern Row drawing[], texts[], images[], windows[];
extern void drawtext(Side *), drawlayers(Side *);
extern void input(void), deleted(void), bare(void), times(void), shapes(void);
