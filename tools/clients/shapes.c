/*
 * Lines, ellipses, arcs and polygons made by chance, each drawn on both sides and compared. What has been drawn stays
 * beneath the next one. A seed makes the same ones again.
 */
#include "harness.h"

typedef struct Shape Shape;
struct Shape {
    int kind;
    int op;
    int target; /* 0: the window; 1: an image; 2: the window, with another clip rectangle */
    int source;
    Point p[40];
    int n;
    int a, b, thick;
    int end0, end1;
    int alpha, phi;
};
enum { Sources = 4, Targets = 3 };
static struct {
    Dimage *source[Sources], *other;
} things[2];
static ulong seed;
static int constant; /* whether only sources of one colour are used, whose place does not matter */

static int chance(int n)
{
    seed = (seed * 1103515245UL + 12345) & 0x7fffffff;
    return (seed >> 8) % n;
}

static Point place(void)
{
    if (chance(8) == 0)
        return Pt(chance(900) - 350, chance(700) - 270);
    return Pt(chance(200) - 4, chance(150) - 4);
}

static int ending(void)
{
    switch (chance(6)) {
    case 0:
        return Enddisc;
    case 1:
        return Endarrow;
    case 2:
        return ARROW(chance(20), chance(20), chance(10));
    }
    return Endsquare;
}

static int ends(Shape *s)
{
    s->end0 = ending();
    s->end1 = ending();
    return chance(4) ? chance(4) : chance(20);
}

static void polygon(Shape *s)
{
    int i, k = chance(5) ? 2 + chance(8) : 2 + chance(30);
    for (i = 0; i < k; i++)
        s->p[i] = place();
    s->n = k;
}

static Shape made(void)
{
    Shape s;
    memset(&s, 0, sizeof s);
    s.kind = "LLeEaAppPP"[chance(10)];
    s.op = chance(3) ? SoverD : chance(12);
    s.target = chance(Targets);
    s.source = chance(constant ? 2 : Sources);
    polygon(&s);
    s.a = chance(10) ? chance(60) : chance(300);
    s.b = chance(10) ? chance(60) : chance(300);
    s.thick = strchr("Lp", s.kind) ? ends(&s) : chance(3) ? chance(4) : chance(40);
    s.alpha = chance(720) - 360;
    s.phi = 1 + chance(358);
    if (chance(2))
        s.phi = -s.phi;
    s.end0 = s.kind == 'P' ? (chance(2) ? ~0 : 1) : s.end0;
    return s;
}

static void sector(Dimage *d, Point c, Shape *s, Dimage *src)
{
    extern void doellipse(int, Dimage *, Point, int, int, int, Dimage *, Point, int, int);
    doellipse(s->kind == 'a' ? 'e' : 'E', d, c, s->a, s->b, s->thick, src, c, s->alpha | 1 << 31, s->phi);
}

static void drawn(Side *side, Shape *s)
{
    int me = side == &device, i;
    Dimage *d = s->target == 1 ? things[me].other : side->w, *src = things[me].source[s->source];
    Point o = s->target == 1 ? Pt(0, 0) : side->w->r.min, p[nelem(s->p)];
    uchar *b;
    for (i = 0; i < s->n; i++)
        p[i] = addpt(o, s->p[i]);
    if (s->target == 2)
        replclipr(d, 0, rectaddpt(Rect(31, 17, 120, 101), o));
    b = bufimage(side->d, 2);
    b[0] = 'O';
    b[1] = s->op;
    if (s->kind == 'L')
        line(d, p[0], p[1], s->end0, s->end1, s->thick, src, p[0]);
    else if (s->kind == 'e')
        ellipse(d, p[0], s->a, s->b, s->thick, src, p[0]);
    else if (s->kind == 'E')
        fillellipse(d, p[0], s->a, s->b, src, p[0]);
    else if (s->kind == 'p')
        poly(d, p, s->n, s->end0, s->end1, s->thick, src, p[0]);
    else if (s->kind == 'P')
        fillpoly(d, p, s->n, s->end0, src, p[0]);
    else
        sector(d, p[0], s, src);
    if (s->target == 2)
        replclipr(d, 0, d->r);
    if (s->target == 1)
        draw(side->w, side->w->r, d, nil, ZP);
}

static void make(Side *s)
{
    static uchar px[32 * 32 * 4];
    int k = s == &device, i;
    Dimage **source = things[k].source;
    use(s);
    for (i = 0; i < sizeof px; i++)
        px[i] = i % 4 == 3 ? 0xff : i * 37 + i / 128;
    source[0] = s->d->black;
    source[1] = col(s->d, DGreen);
    source[2] = allocimage(s->d, Rect(0, 0, 1, 1), RGBA32, 1, setalpha(DRed, 0x80));
    source[3] = allocimage(s->d, Rect(0, 0, 32, 32), XRGB32, 1, DWhite);
    loadimage(source[3], Rect(0, 0, 32, 32), px, sizeof px);
    things[k].other = allocimage(s->d, Rect(-3, -2, 150, 120), s->w->chan, 0, DWhite);
    draw(s->w, s->w->r, s->d->white, nil, ZP);
    flushimage(s->d, 1);
}

static void tell(int i, Shape *s, char *v)
{
    char name[60];
    snprint(name, sizeof name, "shape %d", i);
    keep(name);
    row(name,
        "%s; %c op %d target %d source %d, %d points from %d,%d %d,%d, %dx%d thick %d ends %x %x angles %d %d; %s", v,
        s->kind, s->op, s->target, s->source, s->n, s->p[0].x, s->p[0].y, s->p[1].x, s->p[1].y, s->a, s->b, s->thick,
        s->end0, s->end1, s->alpha, s->phi, rio9.err);
}

/* the window white again on both sides, so that a difference is told once */
static void clear(void)
{
    Side *sides[] = {&rio9, &device};
    int i;
    for (i = 0; i < nelem(sides); i++) {
        use(sides[i]);
        draw(sides[i]->w, sides[i]->w->r, sides[i]->d->white, nil, ZP);
        draw(things[i].other, things[i].other->r, sides[i]->d->white, nil, ZP);
        flushimage(sides[i]->d, 1);
    }
}

void shapes(void)
{
    Shape s;
    int i, bad = 0, off = 0;
    char *v;
    seed = words.seed;
    constant = has("constant");
    make(&rio9);
    make(&device);
    for (i = 0; i < words.count; i++) {
        s = made();
        if (i < words.from)
            continue;
        use(&rio9);
        drawn(&rio9, &s);
        readback(&rio9);
        use(&device);
        drawn(&device, &s);
        readback(&device);
        v = compared();
        off += strncmp(v, "same within", 11) == 0;
        if (v[0] != 's' || rio9.refusals || device.refusals) {
            if (bad++ < 20)
                tell(i, &s, v);
            clear();
        }
    }
    row("shapes by chance", "%d unlike, %d within 1, of %d", bad, off, words.count);
}
