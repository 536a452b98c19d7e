/* Rows of allocimage(2) and readimage(2): pixels, channels, image files, names and limits. */
#include "harness.h"

static ulong chans[] = {GREY1, GREY2, GREY4, GREY8, CMAP8, RGB15, RGB16, RGB24, BGR24, RGBA32, ARGB32, XRGB32, XBGR32,
    CHAN2(CGrey, 8, CAlpha, 8)};

/* pixels for an image of n bytes, full in alpha if it has some */
static void fillpixels(uchar *b, int n, Dimage *m)
{
    int i, grey = m->depth == 16 && m->chan != RGB16 && m->chan != RGB15;
    for (i = 0; i < n; i++)
        b[i] = i * 73 + (i >> 3);
    if (m->chan == RGBA32 || m->chan == ARGB32)
        memset(b, 0xff, n);
    for (i = 0; grey && i < n; i += 2)
        b[i] = 0xff;
}

static void channels(Side *s)
{
    static uchar b[40 * 40 * 4], c[40 * 40 * 4];
    char t[10];
    int i, n;
    Rectangle r = Rect(-3, 2, 30, 30);
    Dimage *m;
    for (i = 0; i < nelem(chans); i++) {
        chantostr(t, chans[i]);
        m = allocimage(s->d, r, chans[i], 0, DWhite);
        if (m == nil) {
            note("%s: %s; ", t, er());
            continue;
        }
        n = bytesperline(r, m->depth) * Dy(r);
        fillpixels(b, n, m);
        if (loadimage(m, r, b, n) != n)
            note("%s load %s; ", t, er());
        if (unloadimage(m, r, c, n) != n)
            note("%s unload %s; ", t, er());
        if (m->depth >= 8 && memcmp(b, c, n) != 0)
            note("%s not what was loaded; ", t);
        draw(s->w, rct(s, 2 + 36 * (i % 5), 2 + 36 * (i / 5), 35 + 36 * (i % 5), 30 + 36 * (i / 5)), m, nil, r.min);
        freeimage(m);
    }
}

/* loads and unloads in many messages of 8,000 bytes */
static void whole(Side *s)
{
    int i, n = bytesperline(s->w->r, s->w->depth) * Dy(s->w->r);
    uchar *b = malloc(n), *c = malloc(n);
    for (i = 0; i < n; i++)
        b[i] = i * i >> 7;
    i = loadimage(s->w, s->w->r, b, n);
    note("load %s ", i == n ? "all" : er());
    i = unloadimage(s->w, s->w->r, c, n);
    note("unload %s", i == n ? "all" : er());
    for (i = 0; i < n && b[i] == c[i]; i++)
        ;
    if (s->w->depth >= 8 && i < n)
        note(" differs at %d", i);
    free(b);
    free(c);
}

static void colourmap(Side *s)
{
    Dimage *i = allocimage(s->d, Rect(0, 0, 1, 1), CMAP8, 1, DPalebluegreen);
    note("allocimage CMAP8: %s", i ? "ok" : er());
    if (i)
        draw(s->w, rct(s, 5, 5, 60, 40), i, nil, ZP);
}

/* all 256 colours of the map, loaded, drawn, and read back */
static void allcolours(Side *s)
{
    static uchar b[256], c[256];
    int i;
    Dimage *m = allocimage(s->d, Rect(0, 0, 16, 16), CMAP8, 0, DBlack);
    for (i = 0; i < sizeof b; i++)
        b[i] = i;
    if (m == nil) {
        note("allocimage CMAP8: %s", er());
        return;
    }
    loadimage(m, m->r, b, sizeof b);
    unloadimage(m, m->r, c, sizeof c);
    note(memcmp(b, c, sizeof b) == 0 ? "read back equal" : "not what was loaded");
    draw(s->w, rct(s, 5, 5, 21, 21), m, nil, ZP);
    freeimage(m);
}

static void imagefile(Side *s, char *file)
{
    char p[300];
    int fd;
    Dimage *i;
    snprint(p, sizeof p, "#U%s/%s", words.folder, file);
    fd = open(p, OREAD);
    i = readimage(s->d, fd, 0);
    close(fd);
    note("readimage: %s", i ? "ok" : er());
    if (i == nil)
        return;
    draw(s->w, rct(s, 5, 5, 100, 100), i, nil, ZP);
    freeimage(i);
}

static void plainfile(Side *s)
{
    imagefile(s, "plain.image");
}

static void packedfile(Side *s)
{
    imagefile(s, "packed.image");
}

/* pixels read back by 'r', packed and written by libmemdraw's own code, and read again by it */
static void writefile(Side *s)
{
    char p[300];
    int fd, n = bytesperline(s->w->r, s->w->depth) * Dy(s->w->r);
    Memimage *m, *k;
    uchar *b = malloc(n);
    drawtext(s);
    s->note[0] = 0;
    snprint(p, sizeof p, "#U%s/written.%s", words.folder, s->name);
    unloadimage(s->w, s->w->r, b, n);
    m = allocmemimage(s->w->r, s->w->chan);
    loadmemimage(m, m->r, b, n);
    fd = create(p, OWRITE, 0644);
    note("writeimage %d ", writememimage(fd, m));
    close(fd);
    fd = open(p, OREAD);
    k = readmemimage(fd);
    close(fd);
    note("read back %s", k && eqrect(k->r, m->r) && k->chan == m->chan ? "equal" : "no");
    freememimage(m);
    freememimage(k);
    free(b);
}

static void names(Side *s)
{
    Dimage *i = allocimage(s->d, Rect(0, 0, 20, 20), XRGB32, 0, DRed), *j;
    char name[40];
    snprint(name, sizeof name, "image.of.%d", words.window.min.x);
    note("nameimage %s ", nameimage(i, name, 1) ? "ok" : er());
    j = namedimage(s->d, name);
    note("namedimage %s ", j ? "ok" : er());
    if (j) {
        draw(s->w, rct(s, 5, 5, 25, 25), j, nil, ZP);
        freeimage(j);
    }
    note("untie %d ", nameimage(i, name, 0));
    j = namedimage(s->d, name);
    note("gone: %s", j ? "still there" : ldlast);
    freeimage(i);
}

/* as rio names the windows of its clients */
static void windowname(Side *s)
{
    Dimage *i = allocimage(s->d, Rect(0, 0, 20, 20), XRGB32, 0, DRed);
    int k = nameimage(i, "window.1.7", 1);
    note("nameimage window.1.7: %s", k ? "ok" : er());
    if (k)
        nameimage(i, "window.1.7", 0);
    freeimage(i);
}

/* programs that share one mount each open draw/new */
static void programs(Side *s)
{
    int i, fd[40];
    char b[100];
    snprint(b, sizeof b, "%s/draw/new", s->dev);
    for (i = 0; i < nelem(fd); i++) {
        fd[i] = open(b, ORDWR | OCEXEC);
        if (fd[i] < 0) {
            note("open %d of draw/new: %s", i + 2, er());
            break;
        }
    }
    if (i == nelem(fd))
        note("%d more programs", i);
    while (--i >= 0)
        close(fd[i]);
}

static void colormapfile(Side *s)
{
    char b[100];
    int fd;
    snprint(b, sizeof b, "%s/draw/%d/colormap", s->dev, s->d->dirno);
    fd = open(b, OREAD);
    note("colormap: %s", fd >= 0 ? "ok" : er());
    if (fd >= 0)
        close(fd);
}

static void large(Side *s)
{
    static Point size[] = {{2048, 2048}, {2500, 2000}, {2048, 2040}};
    Dimage *made[nelem(size)];
    int i;
    for (i = 0; i < nelem(size); i++) {
        made[i] = allocimage(s->d, Rpt(ZP, size[i]), XRGB32, 0, DRed);
        note("%dx%d: %s; ", size[i].x, size[i].y, made[i] ? "ok" : er());
    }
    for (i = 0; i < nelem(size); i++)
        freeimage(made[i]);
}

Row images[] = {
    {"loadimage, unloadimage by channels", channels},
    {"loadimage, unloadimage of a whole window", whole},
    {"allocimage CMAP8", colourmap},
    {"CMAP8: all colours loaded and read back", allcolours},
    {"readimage, not compressed", plainfile},
    {"readimage, compressed", packedfile},
    {"writeimage (unload, pack in the client)", writefile},
    {"nameimage, namedimage", names},
    {"nameimage window.1.7 (a rio's client)", windowname},
    {"initdraw by programs of one mount", programs},
    {"readcolmap", colormapfile},
    {"large images", large},
    {nil},
};
