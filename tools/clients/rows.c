/* Rows, the two sides, and how what they made is compared. */
#include "harness.h"

Side rio9 = {"rio9", "/root", "/root", "/root/winname"};
Side device = {"device", "#i", "/nosuch", "=window.9.9"};
Side *me;
Words words;
static Dimage *late[64];
static Screen *lates[16];
static int nlate, nlates;

void row(char *name, char *fmt, ...)
{
    char b[1500];
    va_list a;
    int n = snprint(b, sizeof b, "%-44s | ", name);
    va_start(a, fmt);
    n += vsnprint(b + n, sizeof b - n - 1, fmt, a);
    va_end(a);
    b[n++] = '\n';
    hostputs(b, n);
}

/* the text of the last error */
char *er(void)
{
    static char e[4][ERRMAX];
    static int i;
    i = (i + 1) & 3;
    rerrstr(e[i], ERRMAX);
    return e[i];
}

/* what the side at work tells beside its picture */
void note(char *fmt, ...)
{
    va_list a;
    int n = strlen(me->note);
    va_start(a, fmt);
    vsnprint(me->note + n, sizeof me->note - n, fmt, a);
    va_end(a);
}

/* an image, or a screen, that goes once the picture was read back */
void after(Dimage *i)
{
    if (i)
        late[nlate++] = i;
}

void afters(Screen *s)
{
    if (s)
        lates[nlates++] = s;
}

void undo(void)
{
    while (nlate > 0)
        freeimage(late[--nlate]);
    while (nlates > 0)
        freescreen(lates[--nlates]);
}

Dimage *col(Display *d, ulong c)
{
    return allocimage(d, Rect(0, 0, 1, 1), XRGB32, 1, c);
}

/* a point and a rectangle of the window, counted from its corner */
Point at(Side *s, int x, int y)
{
    return addpt(s->w->r.min, Pt(x, y));
}

Rectangle rct(Side *s, int a, int b, int c, int d)
{
    return rectaddpt(Rect(a, b, c, d), s->w->r.min);
}

/* makes a side the one that libdraw's globals mean, with nothing told and nothing refused */
void use(Side *s)
{
    me = s;
    display = s->d;
    font = s->f;
    ldrefusals = 0;
    ldlast[0] = 0;
    s->note[0] = 0;
}

int begin(Side *s)
{
    use(s);
    if (geninitdraw(s->dev, nil, nil, "gclient", s->win, Refnone) < 0)
        return -1;
    s->d = display;
    s->f = font;
    s->w = nil;
    s->s = nil;
    return gengetwindow(s->d, s->winname, &s->w, &s->s, Refnone) < 0 ? -1 : 0;
}

/* the window's pixels, as the side has them */
void readback(Side *s)
{
    Dimage *w = s->w;
    int k, n = bytesperline(w->r, w->depth) * Dy(w->r);
    s->refusals = ldrefusals;
    strcpy(s->err, ldlast);
    s->px = realloc(s->px, n);
    s->npx = n;
    memset(s->px, 0x5a, n);
    k = unloadimage(w, w->r, s->px, n);
    if (k != n)
        note(" UNLOAD %d %s", k, er());
}

/* the bits of byte i of what was read that are shown: not those of an ignored channel, nor those beside the window */
static int shown(int i)
{
    Dimage *w = rio9.w;
    int row = bytesperline(w->r, w->depth), bits = 0xff;
    if (gchan == XRGB32 || gchan == XBGR32)
        return i % 4 == 3 ? 0 : bits;
    if (gchan == RGB15)
        return i % 2 == 1 ? 0x7f : bits;
    if (i % row == 0)
        bits &= 0xff >> (w->r.min.x * w->depth & 7);
    if (i % row == row - 1)
        bits &= 0xff << (-w->r.max.x * w->depth & 7);
    return bits;
}

/* how what was read back of the two sides compares */
char *compared(void)
{
    static char v[100];
    int i, k, most = 0, many = 0;
    if (rio9.npx != device.npx)
        return "sizes differ";
    for (i = 0; i < rio9.npx; i++) {
        k = (rio9.px[i] & shown(i)) - (device.px[i] & shown(i));
        if (k < 0)
            k = -k;
        many += k != 0;
        if (k > most)
            most = k;
    }
    if (most == 0)
        return "same picture";
    if (most == 1)
        snprint(v, sizeof v, "same within 1 (%d bytes)", many);
    else
        snprint(v, sizeof v, "DIFFERS by up to %d in %d bytes", most, many);
    return v;
}

/* a row's pictures as image files, for who wants to look at them */
void keep(char *name)
{
    Side *sides[] = {&rio9, &device};
    char p[300], h[61], *q;
    int i, fd;
    for (i = 0; i < nelem(sides); i++) {
        snprint(p, sizeof p, "#U%s/%s.%s.bit", words.folder, name, sides[i]->name);
        for (q = p + 2 + strlen(words.folder) + 1; *q; q++)
            if (*q == ' ' || *q == '/' || *q == ',')
                *q = '_';
        fd = create(p, OWRITE, 0644);
        if (fd < 0)
            return;
        snprint(h, sizeof h, "%11s %11d %11d %11d %11d ", words.chan, 0, 0, Dx(rio9.w->r), Dy(rio9.w->r));
        write(fd, h, 60);
        write(fd, sides[i]->px, sides[i]->npx);
        close(fd);
    }
}

/* the calls of a row on one side, on a white window; then its pixels */
static void one(Side *s, Row *r)
{
    use(s);
    draw(s->w, s->w->r, s->d->white, nil, ZP);
    flushimage(s->d, 0);
    r->run(s);
    flushimage(s->d, 1);
    readback(s);
    undo();
    flushimage(s->d, 1);
}

static void both(Row *r)
{
    char v[1400];
    int n;
    one(&rio9, r);
    one(&device, r);
    n = snprint(v, sizeof v, "%s", compared());
    if (rio9.refusals)
        n += snprint(v + n, sizeof v - n, "; rio9 refused %d: %s", rio9.refusals, rio9.err);
    if (device.refusals)
        n += snprint(v + n, sizeof v - n, "; device refused %d: %s", device.refusals, device.err);
    if (strcmp(rio9.note, device.note) != 0)
        snprint(v + n, sizeof v - n, "; rio9: %s; device: %s", rio9.note, device.note);
    else if (rio9.note[0])
        snprint(v + n, sizeof v - n, "; both: %s", rio9.note);
    row(r->name, "%s", v);
    keep(r->name);
}

void rows(Row *r)
{
    for (; r->name; r++)
        both(r);
}

/* whether the words ask for a part */
int has(char *part)
{
    char *p = strstr(words.parts, part);
    return p != nil && (p == words.parts || p[-1] == ',') && (p[strlen(part)] == 0 || p[strlen(part)] == ',');
}
