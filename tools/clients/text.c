/* Rows of string(2), subfont(2) and openfont(2). */
#include "harness.h"

static char fox[] = "The quick brown fox jumps";
static char latin[] =
    "The quick brown fox, jumps: 0123456789 {}[]~ \303\244\303\266\303\274\303\237\302\251\302\261\303\277";

void drawtext(Side *s)
{
    Point p = string(s->w, at(s, 5, 5), s->d->black, ZP, s->f, fox);
    p = subpt(p, s->w->r.min);
    note("end %d,%d w %d", p.x, p.y, stringwidth(s->f, fox));
    string(s->w, at(s, 5, 25), col(s->d, DRed), ZP, s->f, latin);
    string(s->w, at(s, 5, 45), s->d->black, ZP, s->f, latin + 24);
}

static void background(Side *s)
{
    Dimage *yellow = allocimagemix(s->d, DPaleyellow, DWhite);
    stringbg(s->w, at(s, 5, 5), s->d->white, ZP, s->f, "selected text", col(s->d, DMedblue), ZP);
    stringbg(s->w, at(s, 5, 30), s->d->black, ZP, s->f, "y", yellow, ZP);
    stringop(s->w, at(s, 5, 60), col(s->d, DGreen), ZP, s->f, "stringop S", S);
    string(s->w, at(s, 5, 90), s->d->black, ZP, s->f, "a long line which goes beyond the window's right edge, surely");
}

static void allchars(Side *s)
{
    char b[800];
    int c, y = 0, n = 0;
    Rune r;
    for (c = 1; c < 256; c++) {
        r = c;
        if (c != '\n')
            n += runetochar(b + n, &r);
        if (c % 32 == 31) {
            b[n] = 0;
            string(s->w, at(s, 2, y), s->d->black, ZP, s->f, b);
            y += 14;
            n = 0;
        }
    }
    note("cache %d", s->f->ncache);
}

/* a tick as a text frame has it: drawn, moved, and what stood beneath brought back */
static void tick(Side *s)
{
    ulong chan = s->w->chan;
    Dimage *mark = allocimage(s->d, Rect(0, 0, 3, 15), chan, 0, DWhite);
    Dimage *back = allocimage(s->d, Rect(0, 0, 3, 15), chan, 0, DWhite);
    draw(mark, mark->r, s->d->white, nil, ZP);
    draw(mark, Rect(1, 0, 2, 15), s->d->black, nil, ZP);
    draw(mark, Rect(0, 0, 3, 3), s->d->black, nil, ZP);
    draw(back, back->r, s->w, nil, at(s, 90, 30));
    draw(s->w, rct(s, 90, 30, 93, 45), mark, nil, ZP);
    draw(s->w, rct(s, 120, 30, 123, 45), mark, nil, ZP);
    draw(s->w, rct(s, 90, 30, 93, 45), back, nil, ZP);
    freeimage(mark);
    freeimage(back);
}

/* as a text frame scrolls, opens a gap, selects and ticks: the window is drawn onto itself up, right and down */
static void frame(Side *s)
{
    int i;
    char b[40];
    Dimage *selected = allocimage(s->d, Rect(0, 0, 1, 1), s->w->chan, 1, 0xEEEE9EFF);
    for (i = 0; i < 9; i++) {
        snprint(b, sizeof b, "line %d of the frame", i);
        string(s->w, at(s, 2, 15 * i), s->d->black, ZP, s->f, b);
    }
    draw(s->w, rct(s, 0, 0, 192, 105), s->w, nil, at(s, 0, 30));
    draw(s->w, rct(s, 0, 105, 192, 142), s->d->white, nil, ZP);
    draw(s->w, rct(s, 60, 15, 192, 30), s->w, nil, at(s, 40, 15));
    draw(s->w, rct(s, 0, 60, 192, 105), s->w, nil, at(s, 0, 45));
    stringbg(s->w, at(s, 2, 30), s->d->black, ZP, s->f, "selected", selected, ZP);
    tick(s);
}

static void bymask(Side *s)
{
    stringsubfont(s->w, at(s, 5, 5), s->d->black, s->d->defaultsubfont, "stringsubfont: draws by mask");
}

static void fromfile(Side *s, char *file)
{
    char p[300];
    Font *f;
    snprint(p, sizeof p, "#U%s/%s", words.folder, file);
    f = openfont(s->d, p);
    if (f == nil) {
        note("openfont: %s", er());
        return;
    }
    note("width %d ", stringwidth(f, "font from a file"));
    string(s->w, at(s, 5, 20), s->d->black, ZP, f, "font from a file");
    note("%s", f->cacheimage ? "drawn" : "no characters");
}

static void plain(Side *s)
{
    fromfile(s, "plain.font");
}

static void packed(Side *s)
{
    fromfile(s, "packed.font");
}

static void grey(Side *s)
{
    fromfile(s, "grey8.font");
}

static void low(Side *s)
{
    fromfile(s, "low.font");
}

static void shortfont(Side *s)
{
    fromfile(s, "short.font");
}

/* a character of no points whose upper edge is below its lower one, loaded as loadchar does */
static void blank(Side *s)
{
    Dimage *c = allocimage(s->d, Rect(0, 0, 100, 15), GREY1, 0, 0);
    uchar *b = bufimage(s->d, 10);
    b[0] = 'i';
    BPLONG(b + 1, c->id);
    BPLONG(b + 5, 10);
    b[9] = 12;
    flushimage(s->d, 0);
    b = bufimage(s->d, 37);
    memset(b, 0, 37);
    b[0] = 'l';
    BPLONG(b + 1, c->id);
    BPLONG(b + 5, s->d->white->id);
    BPSHORT(b + 9, 3);
    BPLONG(b + 11, 30);
    BPLONG(b + 15, 15);
    BPLONG(b + 19, 30);
    BPLONG(b + 31, 15);
    b[36] = 9;
    note("%s", flushimage(s->d, 0) < 0 ? ldlast : "loaded");
    freeimage(c);
}

Row texts[] = {
    {"string, stringwidth: default font", drawtext},
    {"stringbg, stringop", background},
    {"string: latin-1, the cache grows", allchars},
    {"a text frame: scroll, gap, selection, tick", frame},
    {"stringsubfont", bymask},
    {"openfont, plain subfont", plain},
    {"openfont, compressed subfont", packed},
    {"openfont, grey of 8 bits", grey},
    {"openfont: height 4 below its subfont's", shortfont},
    {"openfont: ascent 1 below its subfont's", low},
    {"loadchar of a blank, top below bottom", blank},
    {nil},
};
