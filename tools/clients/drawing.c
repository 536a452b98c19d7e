/* Rows of draw(2): fills, masks, operators, and what the profile of rio9 leaves out: lines, ellipses and polygons. */
#include "harness.h"

static void fill(Side *s)
{
    draw(s->w, rct(s, 5, 5, 60, 40), col(s->d, DRed), nil, ZP);
    draw(s->w, rct(s, 50, 30, 900, 900), col(s->d, DBlue), nil, ZP);
}

static void mask8(Side *s)
{
    static uchar m[64 * 64];
    int i;
    Dimage *k = allocimage(s->d, Rect(0, 0, 64, 64), GREY8, 0, DBlack);
    for (i = 0; i < sizeof m; i++)
        m[i] = (i % 64) * 4;
    loadimage(k, k->r, m, sizeof m);
    draw(s->w, rct(s, 10, 10, 74, 74), col(s->d, DDarkgreen), k, ZP);
    gendraw(s->w, rct(s, 80, 10, 130, 60), col(s->d, DRed), ZP, k, Pt(30, 4));
    freeimage(k);
}

static void mask1(Side *s)
{
    static uchar m[8 * 64];
    int i;
    Dimage *k = allocimage(s->d, Rect(0, 0, 64, 64), GREY1, 0, DBlack);
    for (i = 0; i < sizeof m; i++)
        m[i] = i * 37;
    loadimage(k, k->r, m, sizeof m);
    draw(s->w, rct(s, 10, 10, 74, 74), s->d->black, k, ZP);
    replclipr(k, 1, Rect(-1000, -1000, 1000, 1000));
    draw(s->w, rct(s, 80, 10, 180, 120), col(s->d, DRed), k, Pt(3, 5));
    freeimage(k);
}

static void alpha(Side *s)
{
    Dimage *a = allocimage(s->d, Rect(0, 0, 1, 1), RGBA32, 1, setalpha(DRed, 0x80));
    Dimage *b = allocimage(s->d, Rect(0, 0, 1, 1), ARGB32, 1, setalpha(DBlue, 0x30));
    Dimage *l = allocimage(s->d, Rect(0, 0, 50, 50), RGBA32, 0, DTransparent);
    draw(l, Rect(5, 5, 30, 30), a, nil, ZP);
    draw(l, Rect(20, 20, 45, 45), b, nil, ZP);
    draw(s->w, rct(s, 10, 10, 60, 60), l, l, ZP);
    draw(s->w, rct(s, 70, 10, 120, 60), l, nil, ZP);
    draw(s->w, rct(s, 0, 65, 150, 80), a, nil, ZP);
    freeimage(l);
}

static void operators(Side *s)
{
    int i;
    Dimage *a = allocimage(s->d, Rect(0, 0, 1, 1), RGBA32, 1, setalpha(DGreen, 0xA0));
    for (i = 0; i < 12; i++)
        drawop(s->w, rct(s, 4 + 14 * i, 10, 16 + 14 * i, 50), a, nil, ZP, i);
}

static void borders(Side *s)
{
    border(s->w, rct(s, 10, 10, 60, 60), 3, col(s->d, DPurpleblue), ZP);
    border(s->w, rct(s, 80, 30, 100, 60), -5, s->d->black, ZP);
    border(s->w, insetrect(s->w->r, 1), 1, allocimagemix(s->d, DPalebluegreen, DWhite), ZP);
}

static void debug(Side *s)
{
    uchar *a = bufimage(s->d, 2);
    a[0] = 'D';
    a[1] = 0;
    draw(s->w, rct(s, 5, 5, 20, 20), s->d->black, nil, ZP);
}

static void aline(Side *s)
{
    line(s->w, at(s, 5, 5), at(s, 100, 60), 0, 0, 2, s->d->black, ZP);
}

static void anellipse(Side *s)
{
    ellipse(s->w, at(s, 60, 50), 40, 25, 1, s->d->black, ZP);
}

static void filledellipse(Side *s)
{
    fillellipse(s->w, at(s, 60, 50), 40, 25, col(s->d, DRed), ZP);
}

static void filledarc(Side *s)
{
    fillarc(s->w, at(s, 60, 50), 40, 25, col(s->d, DRed), ZP, 30, 100);
}

static void apoly(Side *s, int filled)
{
    Point p[] = {{5, 5}, {90, 20}, {50, 80}, {10, 60}};
    int i;
    for (i = 0; i < nelem(p); i++)
        p[i] = addpt(p[i], s->w->r.min);
    if (filled)
        fillpoly(s->w, p, nelem(p), ~0, s->d->black, ZP);
    else
        poly(s->w, p, nelem(p), 0, 0, 1, s->d->black, ZP);
}

static void openpoly(Side *s)
{
    apoly(s, 0);
}

static void filledpoly(Side *s)
{
    apoly(s, 1);
}

/* one line among other drawing, in one flush: how much of the picture is lost. The characters are loaded before. */
static void within(Side *s)
{
    Dimage *r = col(s->d, DRed), *b = col(s->d, DBlue);
    string(s->w, at(s, 5, 80), s->d->black, ZP, s->f, "after the line");
    flushimage(s->d, 1);
    draw(s->w, rct(s, 5, 5, 40, 40), r, nil, ZP);
    line(s->w, at(s, 0, 0), at(s, 50, 50), 0, 0, 0, s->d->black, ZP);
    draw(s->w, rct(s, 50, 5, 90, 40), b, nil, ZP);
    string(s->w, at(s, 5, 50), s->d->black, ZP, s->f, "after the line");
}

static void ondisplay(Side *s)
{
    Dimage *i = s->d->image;
    Point m = i->r.max, o = Pt(m.x - 40, m.y - 30);
    note("image 0 is %dx%d", m.x, m.y);
    if (ptinrect(o, words.window))
        o = ZP;
    draw(i, Rpt(o, addpt(o, Pt(4, 4))), col(s->d, DRed), nil, ZP);
    flushimage(s->d, 1);
}

Row drawing[] = {
    {"draw: fill", fill},
    {"draw: mask k8", mask8},
    {"draw: mask k1, replicated", mask1},
    {"draw: alpha, layers of it", alpha},
    {"drawop: all 12", operators},
    {"border, allocimagemix", borders},
    {"drawsetdebug (D)", debug},
    {"line", aline},
    {"ellipse", anellipse},
    {"fillellipse", filledellipse},
    {"fillarc", filledarc},
    {"poly", openpoly},
    {"fillpoly", filledpoly},
    {"a line within a flush", within},
    {"drawing on the display from a window", ondisplay},
    {nil},
};
