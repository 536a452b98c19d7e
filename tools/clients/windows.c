/* Rows of window(2), allocscreen and replclipr: windows that a program makes on its own window. */
#include "harness.h"

void drawlayers(Side *s)
{
    Dimage *fill = allocimage(s->d, Rect(0, 0, 8, 8), s->w->chan, 1, DPaleblue), *a, *b, *c, *two[2];
    Screen *sc = allocscreen(s->w, fill, 0);
    if (sc == nil) {
        note("allocscreen: %s", er());
        return;
    }
    a = allocwindow(sc, rct(s, 10, 10, 70, 70), Refbackup, DYellow);
    b = allocwindow(sc, rct(s, 40, 40, 110, 90), Refbackup, DGreen);
    c = allocwindow(sc, rct(s, 60, 20, 90, 60), Refbackup, DMagenta);
    if (!a || !b || !c) {
        note("allocwindow: %s", er());
        return;
    }
    string(a, addpt(a->r.min, Pt(4, 4)), s->d->black, ZP, s->f, "window a");
    border(b, b->r, 2, s->d->black, ZP);
    topwindow(a);
    bottomwindow(c);
    originwindow(b, Pt(0, 0), at(s, 45, 55));
    string(b, Pt(4, 4), s->d->black, ZP, s->f, "moved");
    two[0] = a;
    two[1] = c;
    topnwindows(two, 2);
    note("origin %d,%d", b->r.min.x, b->r.min.y);
    freeimage(a);
    flushimage(s->d, 1);
    after(b);
    after(c);
    afters(sc);
}

/* a screen that is freed lives while its windows do */
static void freed(Side *s)
{
    Screen *sc = allocscreen(s->w, s->d->white, 0);
    Dimage *a = allocwindow(sc, rct(s, 10, 10, 70, 70), Refbackup, DYellow);
    Dimage *b = allocwindow(sc, rct(s, 30, 30, 100, 100), Refbackup, DRed);
    freescreen(sc);
    draw(a, insetrect(a->r, 4), s->d->black, nil, ZP);
    freeimage(b);
    freeimage(a);
}

/* the program draws on an image that its windows cover */
static void under(Side *s)
{
    Screen *sc = allocscreen(s->w, s->d->white, 0);
    Dimage *a = allocwindow(sc, rct(s, 10, 10, 70, 70), Refbackup, DYellow);
    uchar b[8];
    int i, n = bytesperline(Rpt(a->r.min, addpt(a->r.min, Pt(1, 1))), a->depth);
    draw(s->w, rct(s, 0, 0, 40, 40), col(s->d, DRed), nil, ZP);
    flushimage(s->d, 1);
    note("covered corner ");
    unloadimage(a, Rpt(a->r.min, addpt(a->r.min, Pt(1, 1))), b, sizeof b);
    for (i = n - 1; i >= 0; i--)
        note("%.2ux", b[i]);
    after(a);
    afters(sc);
}

static void otherrefresh(Side *s)
{
    Screen *sc = allocscreen(s->w, s->d->white, 0);
    Dimage *a = allocwindow(sc, rct(s, 10, 10, 70, 70), Refnone, DYellow);
    Dimage *b = allocwindow(sc, rct(s, 30, 30, 100, 100), Refmesg, DRed);
    if (a == nil || b == nil)
        note("nil %s", er());
    else {
        draw(a, a->r, s->d->black, nil, ZP);
        topwindow(a);
        topwindow(b);
        after(b);
        after(a);
    }
    afters(sc);
}

static void nofill(Side *s)
{
    Screen *sc = allocscreen(s->w, s->d->white, 0);
    draw(s->w, rct(s, 0, 0, 60, 60), col(s->d, DRed), nil, ZP);
    after(allocwindow(sc, rct(s, 20, 20, 100, 100), Refbackup, DNofill));
    flushimage(s->d, 1);
    afters(sc);
}

static void clip(Side *s)
{
    replclipr(s->w, 0, insetrect(s->w->r, 20));
    draw(s->w, s->w->r, col(s->d, DYellow), nil, ZP);
    replclipr(s->w, 0, s->w->r);
    string(s->w, at(s, 0, 0), s->d->black, ZP, s->f, "clipr of the window");
}

static void replwindow(Side *s)
{
    replclipr(s->w, 1, s->w->r);
    flushimage(s->d, 0);
    replclipr(s->w, 0, s->w->r);
}

static void clipdisplay(Side *s)
{
    replclipr(s->d->image, 0, s->d->image->r);
}

static void public(Side *s)
{
    Screen *sc = allocscreen(s->w, s->d->white, 1), *p;
    Dimage *a;
    if (sc == nil) {
        note("%s", er());
        return;
    }
    p = publicscreen(s->d, sc->id, s->w->chan);
    note("publicscreen of one's own: %s", p ? "ok" : er());
    a = allocwindow(sc, rct(s, 10, 10, 50, 50), Refbackup, DRed);
    flushimage(s->d, 1);
    freeimage(a);
    freescreen(sc);
}

Row windows[] = {
    {"allocwindow, top, bottom, origin, free", drawlayers},
    {"freescreen before its windows", freed},
    {"drawing under a window", under},
    {"Refnone, Refmesg windows", otherrefresh},
    {"allocwindow DNofill", nofill},
    {"replclipr of the window", clip},
    {"replclipr: repl of the window", replwindow},
    {"replclipr of the display", clipdisplay},
    {"publicscreen", public},
    {nil},
};
