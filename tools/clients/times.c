/*
 * What programs do most, on both sides in turn: rio9 through the mount driver and TCP, the device in this process. Each
 * time is of one act, in microseconds: the fewest of some rounds, each of many acts and a read of one pixel, which
 * waits for them.
 */
#include "harness.h"

typedef struct Act Act;
struct Act {
    char *name;
    int many; /* acts of a round */
    void (*run)(Side *, int);
};

static struct {
    Dimage *page, *small, *mask1, *red, *window[2];
    Screen *screen;
    Font *k1, *k8;
} things;

enum { Rounds = 7, Columns = 80, Lines = 40 };
static char line80[] = "A page of text has forty lines like this one, each of eighty characters, say....";

static void character1(Side *s, int i)
{
    string(s->w, at(s, 5 + i % 90, 5), s->d->black, ZP, things.k1, "e");
}

static void character8(Side *s, int i)
{
    string(s->w, at(s, 5 + i % 90, 5), s->d->black, ZP, things.k8, "e");
}

static void page(Side *s, int i)
{
    int k;
    draw(things.page, things.page->r, s->d->white, nil, ZP);
    for (k = 0; k < Lines; k++)
        string(things.page, Pt(0, 15 * k), s->d->black, ZP, things.k1, line80);
}

static void maskfill(Side *s, int i)
{
    draw(s->w, s->w->r, things.red, things.mask1, ZP);
}

static void copy(Side *s, int i)
{
    draw(s->w, s->w->r, things.small, nil, ZP);
}

static void scroll(Side *s, int i)
{
    Rectangle r = s->w->r;
    draw(s->w, Rect(r.min.x, r.min.y, r.max.x, r.max.y - 15), s->w, nil, at(s, 0, 15));
    draw(s->w, Rect(r.min.x, r.max.y - 15, r.max.x, r.max.y), s->d->white, nil, ZP);
}

static void raise(Side *s, int i)
{
    topwindow(things.window[i & 1]);
}

static void loads(Side *s, int i)
{
    static uchar px[Big];
    loadimage(s->w, s->w->r, px, bytesperline(s->w->r, s->w->depth) * Dy(s->w->r));
}

static void unloads(Side *s, int i)
{
    static uchar px[Big];
    unloadimage(s->w, s->w->r, px, sizeof px);
}

static Act acts[] = {
    {"a character by s, k1 font", 1000, character1},
    {"a character by s, k8 font", 1000, character8},
    {"a page of 80x40 characters", 4, page},
    {"a fill of 192x142 through a k1 mask", 100, maskfill},
    {"a copy of a 192x142 image", 100, copy},
    {"a scroll of a text window", 100, scroll},
    {"a raise of 100x80 over another", 100, raise},
    {"loadimage of the window", 10, loads},
    {"unloadimage of the window", 10, unloads},
};

static void make(Side *s)
{
    char p[300];
    use(s);
    things.page = allocimage(s->d, Rect(0, 0, 9 * Columns, 15 * Lines), s->w->chan, 0, DWhite);
    things.small = allocimage(s->d, Rect(0, 0, 192, 142), s->w->chan, 0, DYellow);
    things.mask1 = allocimage(s->d, Rect(0, 0, 192, 142), GREY1, 0, DWhite);
    things.red = col(s->d, DRed);
    things.screen = allocscreen(s->w, s->d->white, 0);
    things.window[0] = allocwindow(things.screen, rct(s, 10, 10, 110, 90), Refbackup, DYellow);
    things.window[1] = allocwindow(things.screen, rct(s, 40, 40, 140, 120), Refbackup, DGreen);
    things.k1 = s->f;
    snprint(p, sizeof p, "#U%s/grey8.font", words.folder);
    things.k8 = openfont(s->d, p);
}

static void unmake(Side *s)
{
    freeimage(things.window[0]);
    freeimage(things.window[1]);
    freescreen(things.screen);
    freeimage(things.page);
    freeimage(things.small);
    freeimage(things.mask1);
    flushimage(s->d, 1);
}

/* a read of one pixel has its answer when all before it is done */
static void done(Side *s)
{
    uchar px[8];
    unloadimage(s->w, Rpt(s->w->r.min, addpt(s->w->r.min, Pt(1, 1))), px, sizeof px);
}

static ulong fewest(Side *s, Act *a)
{
    uint t, least = ~0;
    int i, k;
    for (k = 0; k < Rounds; k++) {
        t = hostusec();
        for (i = 0; i < a->many; i++)
            a->run(s, i);
        done(s);
        t = hostusec() - t;
        if (t < least)
            least = t;
    }
    return least;
}

void times(void)
{
    Side *sides[] = {&rio9, &device};
    ulong t[2][nelem(acts)];
    char name[100];
    int i, j;
    for (j = 0; j < 2; j++) {
        make(sides[j]);
        for (i = 0; i < nelem(acts); i++)
            t[j][i] = fewest(sides[j], &acts[i]) * 10 / acts[i].many;
        unmake(sides[j]);
    }
    for (i = 0; i < nelem(acts); i++) {
        snprint(name, sizeof name, "us: %s", acts[i].name);
        row(name, "rio9 %lud.%lud, device %lud.%lud", t[0][i] / 10, t[0][i] % 10, t[1][i] / 10, t[1][i] % 10);
    }
}
