/*
 * What of libdraw's client half Debian's sources lack, written after graphics(2), draw(2), window(2), allocimage(2),
 * string(2), cachechars(2), subfont(2) and draw(3), with the messages in the order in which libdraw sends them: 8,000
 * bytes of buffer, one write for each flush, one cache of 64 and 5 slots for the characters of a font, which grows, and
 * 'i' and 'l' at the first use of a character. alloc.c, chan.c, rectclip.c and what else is in drawterm's libdraw is
 * the real one.
 */
#include <u.h>
#include <libc.h>
#include <draw.h>

char *argv0;
Display *display;
Font *font;
Screen *_screen;
int ldrefusals; /* how many flushes were refused */
char ldlast[ERRMAX]; /* by which text */

static int doflush(Display *d)
{
    int n = d->bufp - d->buf;
    if (n <= 0)
        return 1;
    d->bufp = d->buf;
    if (write(d->fd, d->buf, n) != n) {
        ldrefusals++;
        rerrstr(ldlast, sizeof ldlast);
        return -1;
    }
    return 1;
}

int flushimage(Display *d, int visible)
{
    if (visible) {
        *d->bufp++ = 'v';
        if (d->_isnewdisplay) {
            BPLONG(d->bufp, d->screenimage->id);
            d->bufp += 4;
        }
    }
    return doflush(d);
}

uchar *bufimage(Display *d, int n)
{
    uchar *p;
    if (n < 0 || n > d->bufsize) {
        werrstr("bad count in bufimage");
        return nil;
    }
    if (d->bufp + n > d->buf + d->bufsize && doflush(d) < 0)
        return nil;
    p = d->bufp;
    d->bufp += n;
    return p;
}

void lockdisplay(Display *d)
{
}

void unlockdisplay(Display *d)
{
}

/* the image that the twelve fields of a ctl file describe */
static Image *described(Display *d, char *info)
{
    Image *i = mallocz(sizeof *i, 1);
    i->display = d;
    i->chan = strtochan(info + 2 * 12);
    i->depth = chantodepth(i->chan);
    i->repl = atoi(info + 3 * 12);
    i->r = Rect(atoi(info + 4 * 12), atoi(info + 5 * 12), atoi(info + 6 * 12), atoi(info + 7 * 12));
    i->clipr = Rect(atoi(info + 8 * 12), atoi(info + 9 * 12), atoi(info + 10 * 12), atoi(info + 11 * 12));
    return i;
}

Display *initdisplay(char *dev, char *win, void (*error)(Display *, char *))
{
    char b[128], info[12 * 12 + 1];
    Display *d = mallocz(sizeof *d, 1);
    int n;

    d->devdir = strdup(dev);
    d->windir = strdup(win);
    snprint(b, sizeof b, "%s/draw/new", dev);
    if ((d->ctlfd = open(b, ORDWR | OCEXEC)) < 0)
        return nil;
    n = read(d->ctlfd, info, sizeof info);
    if (n < 12)
        return nil;
    info[n < 144 ? n : 144] = 0;
    d->_isnewdisplay = n < 12 * 12;
    snprint(b, sizeof b, "%s/draw/%d/data", dev, d->dirno = atoi(info));
    d->fd = open(b, ORDWR | OCEXEC);
    snprint(b, sizeof b, "%s/draw/%d/refresh", dev, d->dirno);
    d->reffd = open(b, OREAD | OCEXEC);
    if (d->fd < 0 || d->reffd < 0)
        return nil;
    d->bufsize = Displaybufsize;
    d->buf = malloc(d->bufsize + 5);
    d->bufp = d->buf;
    d->error = error;
    if (n >= 12 * 12)
        d->image = described(d, info);
    d->white = allocimage(d, Rect(0, 0, 1, 1), GREY1, 1, DWhite);
    d->black = allocimage(d, Rect(0, 0, 1, 1), GREY1, 1, DBlack);
    d->opaque = d->white;
    d->transparent = d->black;
    return d->white && d->black ? d : nil;
}

void closedisplay(Display *d)
{
    char b[128];
    int fd;
    if (d->oldlabel[0]) {
        snprint(b, sizeof b, "%s/label", d->windir);
        fd = open(b, OWRITE);
        if (fd >= 0) {
            write(fd, d->oldlabel, strlen(d->oldlabel));
            close(fd);
        }
    }
    flushimage(d, 0);
    close(d->fd);
    close(d->ctlfd);
    close(d->reffd);
}

int geninitdraw(char *dev, void (*error)(Display *, char *), char *fontname, char *label, char *win, int ref)
{
    char b[128];
    Subfont *df;
    int fd, n;

    display = initdisplay(dev, win, error);
    if (display == nil)
        return -1;
    df = getdefont(display);
    display->defaultsubfont = df;
    if (df == nil)
        return -1;
    if (fontname == nil) {
        font = mkfont(df, 0);
        font->name = "*default*";
    } else
        font = openfont(display, fontname);
    display->defaultfont = font;
    if (font == nil)
        return -1;
    if (label != nil) {
        snprint(b, sizeof b, "%s/label", win);
        if ((fd = open(b, OREAD)) >= 0) {
            n = read(fd, display->oldlabel, sizeof display->oldlabel - 1);
            display->oldlabel[n < 0 ? 0 : n] = 0;
            close(fd);
            if ((fd = create(b, OWRITE, 0666)) >= 0) {
                write(fd, label, strlen(label));
                close(fd);
            }
        }
    }
    return 0;
}

/* the name of the window's image: of the file winname, or behind a =; "noborder" if there is none */
static void windowname(char *winname, char *b, int size)
{
    int fd, n;
    if (winname[0] == '=') {
        snprint(b, size, "%s", winname + 1);
        return;
    }
    fd = open(winname, OREAD);
    n = fd < 0 ? -1 : read(fd, b, size - 1);
    if (fd >= 0)
        close(fd);
    if (n <= 0)
        strcpy(b, "noborder");
    else
        b[n] = 0;
}

static void leave(Image *w, Screen **scrp)
{
    if (w == nil)
        return;
    _freeimage1(w);
    freeimage((*scrp)->image);
    freescreen(*scrp);
    *scrp = nil;
}

/* the window's own image: a screen on the named one, and a window 4 points inside it; again after each resize */
int gengetwindow(Display *d, char *winname, Image **winp, Screen **scrp, int ref)
{
    char b[64 + 1], old[64 + 1];
    Image *image = d->image;
    Rectangle r;
    old[0] = 0;
    windowname(winname, b, sizeof b);
    if (strcmp(b, "noborder") != 0) {
        leave(*winp, scrp);
        /* the name may be another by now */
        while ((image = namedimage(d, b)) == nil && strcmp(old, b) != 0) {
            strcpy(old, b);
            windowname(winname, b, sizeof b);
        }
        if (image == nil) {
            *winp = nil;
            return -1;
        }
    }
    d->screenimage = image;
    *scrp = allocscreen(image, d->white, 0);
    if (*scrp == nil)
        return -1;
    r = strncmp(b, "noborder", 8) == 0 ? image->r : insetrect(image->r, Borderwidth);
    *winp = _allocwindow(*winp, *scrp, r, ref, DWhite);
    if (*winp == nil)
        return -1;
    d->screenimage = *winp;
    return 1;
}

/* windows */
static int screenid;
Screen *allocscreen(Image *image, Image *fill, int public)
{
    Screen *s = mallocz(sizeof *s, 1);
    Display *d = image->display;
    uchar *a;
    int try, id = 0;
    for (try = 0; try < 25; try++) {
        if (flushimage(d, 0) < 0)
            ;
        a = bufimage(d, 1 + 4 + 4 + 4 + 1);
        id = ++screenid & 0xffff;
        a[0] = 'A';
        BPLONG(a + 1, id);
        BPLONG(a + 5, image->id);
        BPLONG(a + 9, fill->id);
        a[13] = public;
        if (flushimage(d, 0) != -1)
            break;
    }
    if (try == 25) {
        free(s);
        return nil;
    }
    ldrefusals -= try; /* ids that public screens of other programs have are passed over */
    s->display = d;
    s->id = id;
    s->image = image;
    s->fill = fill;
    return s;
}

Screen *publicscreen(Display *d, int id, ulong chan)
{
    Screen *s;
    uchar *a;
    flushimage(d, 0);
    a = bufimage(d, 1 + 4 + 4);
    a[0] = 'S';
    BPLONG(a + 1, id);
    BPLONG(a + 5, chan);
    if (flushimage(d, 0) < 0)
        return nil;
    s = mallocz(sizeof *s, 1);
    s->display = d;
    s->id = id;
    return s;
}

int freescreen(Screen *s)
{
    uchar *a;
    if (s == nil)
        return 0;
    a = bufimage(s->display, 1 + 4);
    a[0] = 'F';
    BPLONG(a + 1, s->id);
    return flushimage(s->display, 1);
}

Image *_allocwindow(Image *i, Screen *s, Rectangle r, int ref, ulong col)
{
    Display *d = s->display;
    i = _allocimage(i, d, r, d->screenimage ? d->screenimage->chan : d->image->chan, 0, col, s->id, ref);
    if (i == nil)
        return nil;
    i->screen = s;
    i->next = s->display->windows;
    s->display->windows = i;
    return i;
}

Image *allocwindow(Screen *s, Rectangle r, int ref, ulong col)
{
    return _allocwindow(nil, s, r, ref, col);
}

static void topbottom(Image **w, int n, int top)
{
    Display *d = w[0]->display;
    uchar *b = bufimage(d, 1 + 1 + 2 + 4 * n);
    int i;
    b[0] = 't';
    b[1] = top;
    BPSHORT(b + 2, n);
    for (i = 0; i < n; i++)
        BPLONG(b + 4 + 4 * i, w[i]->id);
}

void bottomwindow(Image *w)
{
    if (w->screen) {
        topbottom(&w, 1, 0);
    }
}

void topwindow(Image *w)
{
    if (w->screen)
        topbottom(&w, 1, 1);
}

void bottomnwindows(Image **w, int n)
{
    topbottom(w, n, 0);
}

void topnwindows(Image **w, int n)
{
    topbottom(w, n, 1);
}

int originwindow(Image *w, Point log, Point scr)
{
    uchar *b;
    Point delta;
    flushimage(w->display, 0);
    b = bufimage(w->display, 1 + 4 + 2 * 4 + 2 * 4);
    b[0] = 'o';
    BPLONG(b + 1, w->id);
    BPLONG(b + 5, log.x);
    BPLONG(b + 9, log.y);
    BPLONG(b + 13, scr.x);
    BPLONG(b + 17, scr.y);
    if (flushimage(w->display, 1) < 0)
        return -1;
    delta = subpt(log, w->r.min);
    w->r = rectaddpt(w->r, delta);
    w->clipr = rectaddpt(w->clipr, delta);
    return 1;
}

void replclipr(Image *i, int repl, Rectangle clipr)
{
    uchar *b = bufimage(i->display, 22);
    b[0] = 'c';
    BPLONG(b + 1, i->id);
    repl = repl != 0;
    b[5] = repl;
    BPLONG(b + 6, clipr.min.x);
    BPLONG(b + 10, clipr.min.y);
    BPLONG(b + 14, clipr.max.x);
    BPLONG(b + 18, clipr.max.y);
    i->repl = repl;
    i->clipr = clipr;
}

/* drawing */
void _setdrawop(Display *d, Drawop op)
{
    uchar *a;
    if (op != SoverD) {
        a = bufimage(d, 2);
        a[0] = 'O';
        a[1] = op;
    }
}

void gendrawop(Image *dst, Rectangle r, Image *src, Point p0, Image *mask, Point p1, Drawop op)
{
    uchar *a;
    _setdrawop(dst->display, op);
    a = bufimage(dst->display, 45);
    if (a == nil)
        return;
    if (src == nil)
        src = dst->display->black;
    if (mask == nil)
        mask = dst->display->opaque;
    a[0] = 'd';
    BPLONG(a + 1, dst->id);
    BPLONG(a + 5, src->id);
    BPLONG(a + 9, mask->id);
    BPLONG(a + 13, r.min.x);
    BPLONG(a + 17, r.min.y);
    BPLONG(a + 21, r.max.x);
    BPLONG(a + 25, r.max.y);
    BPLONG(a + 29, p0.x);
    BPLONG(a + 33, p0.y);
    BPLONG(a + 37, p1.x);
    BPLONG(a + 41, p1.y);
}

void gendraw(Image *dst, Rectangle r, Image *src, Point p0, Image *mask, Point p1)
{
    gendrawop(dst, r, src, p0, mask, p1, SoverD);
}

void draw(Image *dst, Rectangle r, Image *src, Image *mask, Point p1)
{
    gendrawop(dst, r, src, p1, mask, p1, SoverD);
}

void drawop(Image *dst, Rectangle r, Image *src, Image *mask, Point p1, Drawop op)
{
    gendrawop(dst, r, src, p1, mask, p1, op);
}

void border(Image *im, Rectangle r, int i, Image *c, Point sp)
{
    if (i < 0) {
        r = insetrect(r, i);
        sp = addpt(sp, Pt(i, i));
        i = -i;
    }
    draw(im, Rect(r.min.x, r.min.y, r.max.x, r.min.y + i), c, nil, sp);
    draw(im, Rect(r.min.x, r.max.y - i, r.max.x, r.max.y), c, nil, Pt(sp.x, sp.y + Dy(r) - i));
    draw(im, Rect(r.min.x, r.min.y + i, r.min.x + i, r.max.y - i), c, nil, Pt(sp.x, sp.y + i));
    draw(im, Rect(r.max.x - i, r.min.y + i, r.max.x, r.max.y - i), c, nil, Pt(sp.x + Dx(r) - i, sp.y + i));
}

Image *allocimagemix(Display *d, ulong c1, ulong c3)
{
    static Display *of;
    static Image *q;
    Image *t, *b;
    if (q == nil || of != d) {
        q = allocimage(d, Rect(0, 0, 1, 1), GREY8, 1, 0x3F3F3FFF);
        of = d;
    }
    t = allocimage(d, Rect(0, 0, 1, 1), d->image->chan, 1, c1);
    b = allocimage(d, Rect(0, 0, 1, 1), d->image->chan, 1, c3);
    if (t == nil || b == nil)
        return nil;
    draw(b, b->r, t, q, ZP);
    freeimage(t);
    return b;
}

void line(Image *dst, Point p0, Point p1, int e0, int e1, int rad, Image *src, Point sp)
{
    uchar *a = bufimage(dst->display, 45);
    a[0] = 'L';
    BPLONG(a + 1, dst->id);
    BPLONG(a + 5, p0.x);
    BPLONG(a + 9, p0.y);
    BPLONG(a + 13, p1.x);
    BPLONG(a + 17, p1.y);
    BPLONG(a + 21, e0);
    BPLONG(a + 25, e1);
    BPLONG(a + 29, rad);
    BPLONG(a + 33, src->id);
    BPLONG(a + 37, sp.x);
    BPLONG(a + 41, sp.y);
}

void doellipse(int cmd, Image *dst, Point c, int x, int y, int thick, Image *src, Point sp, int alpha, int phi)
{
    uchar *a = bufimage(dst->display, 45);
    a[0] = cmd;
    BPLONG(a + 1, dst->id);
    BPLONG(a + 5, src->id);
    BPLONG(a + 9, c.x);
    BPLONG(a + 13, c.y);
    BPLONG(a + 17, x);
    BPLONG(a + 21, y);
    BPLONG(a + 25, thick);
    BPLONG(a + 29, sp.x);
    BPLONG(a + 33, sp.y);
    BPLONG(a + 37, alpha);
    BPLONG(a + 41, phi);
}

void ellipse(Image *d, Point c, int x, int y, int t, Image *s, Point sp)
{
    doellipse('e', d, c, x, y, t, s, sp, 0, 0);
}

void fillellipse(Image *d, Point c, int x, int y, Image *s, Point sp)
{
    doellipse('E', d, c, x, y, 0, s, sp, 0, 0);
}

void fillarc(Image *d, Point c, int x, int y, Image *s, Point sp, int al, int phi)
{
    doellipse('E', d, c, x, y, 0, s, sp, al | 1 << 31, phi);
}

static uchar *addcoord(uchar *p, int old, int new)
{
    int dx = new - old;
    if (dx >= -0x40 && dx <= 0x3F)
        *p++ = dx & 0x7F;
    else {
        *p++ = 0x80 | (new & 0x7F);
        *p++ = new >> 7;
        *p++ = new >> 15;
    }
    return p;
}

static void dopoly(int cmd, Image *dst, Point *pp, int np, int e0, int e1, int rad, Image *src, Point sp)
{
    uchar t[4096], *u = t, *a;
    Point o = ZP;
    int i;
    for (i = 0; i < np; i++) {
        u = addcoord(u, o.x, pp[i].x);
        u = addcoord(u, o.y, pp[i].y);
        o = pp[i];
    }
    a = bufimage(dst->display, 35 + (u - t));
    a[0] = cmd;
    BPLONG(a + 1, dst->id);
    BPSHORT(a + 5, np - 1);
    BPLONG(a + 7, e0);
    BPLONG(a + 11, e1);
    BPLONG(a + 15, rad);
    BPLONG(a + 19, src->id);
    BPLONG(a + 23, sp.x);
    BPLONG(a + 27, sp.y);
    memmove(a + 31, t, u - t);
    dst->display->bufp -= 4;
}

void poly(Image *d, Point *p, int n, int e0, int e1, int rad, Image *s, Point sp)
{
    dopoly('p', d, p, n, e0, e1, rad, s, sp);
}

void fillpoly(Image *d, Point *p, int n, int wind, Image *s, Point sp)
{
    dopoly('P', d, p, n, wind, 0, 0, s, sp);
}

/* pixels */
int loadimage(Image *i, Rectangle r, uchar *data, int ndata)
{
    int dy, n, bpl, chunk = i->display->bufsize - 64;
    uchar *a;
    if (!rectinrect(r, i->r)) {
        werrstr("loadimage: bad rectangle");
        return -1;
    }
    bpl = bytesperline(r, i->depth);
    if (bpl * Dy(r) > ndata) {
        werrstr("loadimage: insufficient data");
        return -1;
    }
    for (ndata = 0; r.max.y > r.min.y; r.min.y += dy) {
        dy = Dy(r);
        if (dy * bpl > chunk)
            dy = chunk / bpl;
        if (dy <= 0) {
            werrstr("loadimage: image too wide for buffer");
            return -1;
        }
        n = dy * bpl;
        a = bufimage(i->display, 21 + n);
        if (a == nil)
            return -1;
        a[0] = 'y';
        BPLONG(a + 1, i->id);
        BPLONG(a + 5, r.min.x);
        BPLONG(a + 9, r.min.y);
        BPLONG(a + 13, r.max.x);
        BPLONG(a + 17, r.min.y + dy);
        memmove(a + 21, data, n);
        ndata += n;
        data += n;
    }
    if (flushimage(i->display, 0) < 0)
        return -1;
    return ndata;
}

int cloadimage(Image *i, Rectangle r, uchar *data, int ndata)
{
    uchar *a;
    int nb, n = 0, miny, maxy;
    for (miny = r.min.y; miny != r.max.y; miny = maxy) {
        maxy = atoi((char *)data);
        nb = atoi((char *)data + 12);
        a = bufimage(i->display, 21 + nb);
        if (a == nil)
            return -1;
        a[0] = 'Y';
        BPLONG(a + 1, i->id);
        BPLONG(a + 5, r.min.x);
        BPLONG(a + 9, miny);
        BPLONG(a + 13, r.max.x);
        BPLONG(a + 17, maxy);
        memmove(a + 21, data + 24, nb);
        data += 24 + nb;
        n += 24 + nb;
    }
    if (flushimage(i->display, 0) < 0)
        return -1;
    return n;
}

int unloadimage(Image *i, Rectangle r, uchar *data, int ndata)
{
    int bpl, n, ntodo, dy, chunk;
    uchar *a;
    Display *d = i->display;
    if (!rectinrect(r, i->r)) {
        werrstr("unloadimage: bad rectangle");
        return -1;
    }
    bpl = bytesperline(r, i->depth);
    if (bpl * Dy(r) > ndata) {
        werrstr("unloadimage: buffer too small");
        return -1;
    }
    chunk = d->bufsize;
    flushimage(d, 0);
    for (ndata = 0; r.max.y > r.min.y; r.min.y += dy) {
        dy = chunk / bpl;
        if (dy <= 0)
            dy = 1;
        if (dy > Dy(r))
            dy = Dy(r);
        a = bufimage(d, 21);
        a[0] = 'r';
        BPLONG(a + 1, i->id);
        BPLONG(a + 5, r.min.x);
        BPLONG(a + 9, r.min.y);
        BPLONG(a + 13, r.max.x);
        BPLONG(a + 17, r.min.y + dy);
        if (flushimage(d, 0) < 0)
            return -1;
        for (ntodo = dy * bpl; ntodo > 0; ntodo -= n) {
            n = read(d->fd, data + ndata, ntodo);
            if (n <= 0)
                return -1;
            ndata += n;
        }
    }
    return ndata;
}

/* the head of an image file, as the old or the new format has it: its channels, 0 if they are none, and its rectangle
 */
static ulong header(int fd, char *hdr, Rectangle *r)
{
    int n;
    if (readn(fd, hdr + 11, 5 * 12 - 11) != 5 * 12 - 11)
        return 0;
    hdr[5 * 12] = 0;
    *r = Rect(atoi(hdr + 12), atoi(hdr + 24), atoi(hdr + 36), atoi(hdr + 48));
    for (n = 0; n < 10 && hdr[n] == ' '; n++)
        ;
    if (n == 10 && hdr[n] >= '0' && hdr[n] <= '4')
        return drawld2chan[atoi(hdr)];
    return strtochan(hdr);
}

/* the blocks of a compressed file, each sent by 'Y' as it is, as creadimage does */
static int packedrows(Image *i, int fd)
{
    char hdr[25];
    Rectangle r = i->r;
    int nb;
    uchar *a;
    hdr[24] = 0;
    for (; r.min.y != r.max.y; r.min.y = atoi(hdr)) {
        if (readn(fd, hdr, 24) != 24)
            return -1;
        nb = atoi(hdr + 12);
        a = bufimage(i->display, 21 + nb);
        if (a == nil)
            return -1;
        a[0] = 'Y';
        BPLONG(a + 1, i->id);
        BPLONG(a + 5, r.min.x);
        BPLONG(a + 9, r.min.y);
        BPLONG(a + 13, r.max.x);
        BPLONG(a + 17, atoi(hdr));
        if (readn(fd, a + 21, nb) != nb)
            return -1;
    }
    return flushimage(i->display, 0);
}

static int plainrows(Image *i, int fd)
{
    int k, n = bytesperline(i->r, i->depth) * Dy(i->r);
    uchar *t = malloc(n + 1);
    k = readn(fd, t, n) == n ? loadimage(i, i->r, t, n) : -1;
    free(t);
    return k;
}

/* image(6) */
Image *readimage(Display *d, int fd, int dolock)
{
    char hdr[5 * 12 + 1], e[ERRMAX];
    ulong chan;
    Rectangle r;
    Image *i;
    int packed;
    if (readn(fd, hdr, 11) != 11)
        return nil;
    packed = memcmp(hdr, "compressed\n", 11) == 0;
    if (packed && readn(fd, hdr, 11) != 11)
        return nil;
    chan = header(fd, hdr, &r);
    if (chan == 0) {
        werrstr("bad channel string in image file");
        return nil;
    }
    i = allocimage(d, r, chan, 0, 0);
    if (i == nil)
        return nil;
    if ((packed ? packedrows(i, fd) : plainrows(i, fd)) >= 0)
        return i;
    rerrstr(e, sizeof e);
    freeimage(i);
    werrstr("%s", e);
    return nil;
}

/* fonts */
Subfont *allocsubfont(char *name, int n, int height, int ascent, Fontchar *info, Image *bits)
{
    Subfont *f = mallocz(sizeof *f, 1);
    f->name = strdup(name);
    f->n = n;
    f->height = height;
    f->ascent = ascent;
    f->info = info;
    f->bits = bits;
    f->ref = 1;
    return f;
}

Subfont *getdefont(Display *d)
{
    char *p = (char *)defontdata, *h;
    Rectangle r = Rect(atoi(p + 12), atoi(p + 24), atoi(p + 36), atoi(p + 48));
    Image *i;
    Fontchar *fc;
    int n;
    i = allocimage(d, r, drawld2chan[atoi(p)], 0, 0);
    if (i == nil)
        return nil;
    n = loadimage(i, r, (uchar *)p + 60, sizeofdefont - 60);
    if (n < 0)
        return nil;
    h = p + 60 + n;
    n = atoi(h);
    fc = malloc(sizeof(Fontchar) * (n + 1));
    _unpackinfo(fc, (uchar *)h + 36, n);
    return allocsubfont("*default*", n, atoi(h + 12), atoi(h + 24), fc, i);
}

Subfont *readsubfonti(Display *d, char *name, int fd, Image *ai, int dolock)
{
    char hdr[3 * 12 + 4];
    Fontchar *fc;
    uchar *p;
    Image *i = ai;
    int n;
    if (i == nil && (i = readimage(d, fd, dolock)) == nil)
        return nil;
    if (readn(fd, hdr, 36) != 36)
        return nil;
    hdr[36] = 0;
    n = atoi(hdr);
    p = malloc(6 * (n + 1));
    if (readn(fd, p, 6 * (n + 1)) != 6 * (n + 1))
        return nil;
    fc = malloc(sizeof(Fontchar) * (n + 1));
    _unpackinfo(fc, p, n);
    free(p);
    return allocsubfont(name, n, atoi(hdr + 12), atoi(hdr + 24), fc, i);
}

Subfont *_getsubfont(Display *d, char *name)
{
    Subfont *f;
    int fd;
    if (strcmp(name, "*default*") == 0)
        return d->defaultsubfont;
    fd = open(name, OREAD);
    if (fd < 0)
        return nil;
    f = readsubfonti(d, name, fd, nil, 0);
    close(fd);
    return f;
}

static Font *newfont(Display *d, char *name, int height, int ascent)
{
    Font *f = mallocz(sizeof *f, 1);
    f->name = strdup(name);
    f->display = d;
    f->height = height;
    f->ascent = ascent;
    f->ncache = NFCACHE + NFLOOK;
    f->nsubf = NFSUBF;
    f->age = 1;
    f->cache = mallocz(f->ncache * sizeof(Cacheinfo), 1);
    f->subf = mallocz(MAXSUBF * sizeof(Cachesubf), 1);
    f->sub = mallocz(200 * sizeof(Cachefont *), 1);
    return f;
}

static Cachefont *addsub(Font *f, int min, int max, char *name)
{
    Cachefont *c = mallocz(sizeof *c, 1);
    c->min = min;
    c->max = max;
    c->name = strdup(name);
    c->subfontname = c->name;
    f->sub[f->nsub++] = c;
    return c;
}

Font *mkfont(Subfont *s, Rune min)
{
    Font *f = newfont(s->bits->display, "<synthetic>", s->height, s->ascent);
    Cachefont *c = addsub(f, min, min + s->n - 1, s->name);
    f->subf[0].cf = c;
    f->subf[0].f = s;
    return f;
}

/* the lines of a font file: a first and a last character, and the file of their subfont */
static void fontlines(Font *f, char *p)
{
    char *q, path[256], t[256];
    int first, last;
    for (;;) {
        while (*p == ' ' || *p == '\t' || *p == '\n')
            p++;
        if (*p == 0)
            return;
        first = strtol(p, &p, 0);
        last = strtol(p, &p, 0);
        while (*p == ' ' || *p == '\t')
            p++;
        for (q = t; *p && *p != '\n' && *p != ' ' && q < t + sizeof t - 1;)
            *q++ = *p++;
        *q = 0;
        strcpy(path, f->name);
        q = t[0] == '/' || t[0] == '#' ? nil : strrchr(path, '/');
        strcpy(q ? q + 1 : path, t);
        addsub(f, first, last, path);
    }
}

Font *openfont(Display *d, char *name)
{
    static char b[8192];
    char *p = b;
    Font *f;
    int n, fd, height, ascent;
    if (strcmp(name, "*default*") == 0)
        return mkfont(d->defaultsubfont, 0);
    fd = open(name, OREAD);
    if (fd < 0)
        return nil;
    n = readn(fd, b, sizeof b - 1);
    close(fd);
    if (n <= 0)
        return nil;
    b[n] = 0;
    height = strtol(p, &p, 0);
    ascent = strtol(p, &p, 0);
    if (height <= 0 || ascent <= 0) {
        werrstr("bad height or ascent in font file");
        return nil;
    }
    f = newfont(d, name, height, ascent);
    fontlines(f, p);
    return f;
}

static int fontresize(Font *f, int wid, int ncache, int depth)
{
    Display *d = f->display;
    Image *new;
    uchar *b;
    if (depth <= 0)
        depth = 1;
    new = allocimage(d, Rect(0, 0, ncache * wid, f->height), CHAN1(CGrey, depth), 0, 0);
    if (new == nil)
        return 0;
    flushimage(d, 0);
    b = bufimage(d, 1 + 4 + 4 + 1);
    b[0] = 'i';
    BPLONG(b + 1, new->id);
    BPLONG(b + 5, ncache);
    b[9] = f->ascent;
    if (flushimage(d, 0) < 0) {
        freeimage(new);
        return 0;
    }
    freeimage(f->cacheimage);
    f->cacheimage = new;
    f->width = wid;
    f->maxdepth = depth;
    if (f->ncache != ncache) {
        free(f->cache);
        f->cache = malloc(ncache * sizeof(Cacheinfo));
        f->ncache = ncache;
    }
    memset(f->cache, 0, f->ncache * sizeof(Cacheinfo));
    return 1;
}

/* the subfont that has a character, read at its first use */
static Subfont *subof(Font *f, Rune r, Cachefont **cfp)
{
    int i, j;
    Cachefont *c;
    for (i = 0; i < f->nsub; i++) {
        c = f->sub[i];
        if (c->min <= r && r <= c->max) {
            *cfp = c;
            for (j = 0; j < MAXSUBF; j++)
                if (f->subf[j].cf == c)
                    return f->subf[j].f;
            for (j = 0; j < MAXSUBF - 1 && f->subf[j].cf; j++)
                ;
            f->subf[j].f = _getsubfont(f->display, c->subfontname);
            if (f->subf[j].f == nil)
                return nil;
            f->subf[j].cf = c;
            return f->subf[j].f;
        }
    }
    return nil;
}

static void sendchar(Font *f, Subfont *s, Fontchar *fi, int h)
{
    int x = f->cache[h].x, down = f->ascent - s->ascent;
    uchar *b;
    flushimage(f->display, 0);
    b = bufimage(f->display, 37);
    b[0] = 'l';
    BPLONG(b + 1, f->cacheimage->id);
    BPLONG(b + 5, s->bits->id);
    BPSHORT(b + 9, h);
    BPLONG(b + 11, x);
    BPLONG(b + 15, fi->top + down);
    BPLONG(b + 19, x + ((fi + 1)->x - fi->x));
    BPLONG(b + 23, fi->bottom + down);
    BPLONG(b + 27, fi->x);
    BPLONG(b + 31, fi->top);
    b[35] = fi->left;
    b[36] = fi->width;
}

/* the character into slot h, as an 'l' message: 1. 0: it has none. 2: the cache was made anew */
static int load(Font *f, Rune r, int h)
{
    Subfont *s;
    Cachefont *cf;
    Fontchar *fi;
    Cacheinfo *c;
    int wid, depth;
    s = subof(f, r, &cf);
    if (s == nil)
        return 0;
    fi = s->info + (r - cf->min + cf->offset);
    if (fi->width == 0)
        return r == 0x80 ? 0 : load(f, 0x80, h);
    wid = (fi + 1)->x - fi->x;
    depth = s->bits->depth;
    if (f->width < wid || f->width == 0 || f->maxdepth < depth) {
        if (wid < f->width)
            wid = f->width;
        return fontresize(f, wid, f->ncache, depth > f->maxdepth ? depth : f->maxdepth) == 0 ? 0 : 2;
    }
    c = &f->cache[h];
    c->value = r;
    c->width = fi->width;
    c->x = h * f->width;
    c->left = fi->left;
    c->age = f->age;
    sendchar(f, s, fi, h);
    return 1;
}

/* the slot of a character, or the oldest that it may take; whether it is there */
static int slot(Font *f, Rune r, int *there)
{
    int k, oldest, first = (17 * (uint)r) & (f->ncache - NFLOOK - 1);
    *there = 0;
    oldest = first;
    for (k = first; k < first + NFLOOK; k++) {
        if (f->cache[k].value == r && f->cache[k].age) {
            *there = 1;
            return k;
        }
        if (f->cache[k].age < f->cache[oldest].age)
            oldest = k;
    }
    return oldest;
}

/* whether the cache is to grow before a slot is used anew */
static int isyoung(Font *f, int h)
{
    return f->ncache < MAXFCACHE && f->cache[h].age && f->age - f->cache[h].age < 500;
}

/* slots for the characters of s, as many as go in one message; a cache that is made anew has no character of it */
static int cache(Font *f, char **s, ushort *cp, int max, int *wid)
{
    int i = 0, h, n, k, there;
    Rune r;
    *wid = 0;
    while (i < max && **s) {
        n = chartorune(&r, *s);
        h = slot(f, r, &there);
        k = 1;
        if (!there) {
            if (i > 0 && (isyoung(f, h) || f->cache[h].age == f->age))
                break;
            if (isyoung(f, h)) {
                fontresize(f, f->width, 2 * (f->ncache - NFLOOK) + NFLOOK, f->maxdepth);
                continue;
            }
            k = load(f, r, h);
        }
        if (k == 2 && i > 0)
            break;
        if (k == 2)
            continue;
        *s += n;
        if (k == 0)
            continue;
        f->cache[h].age = f->age;
        cp[i++] = h;
        *wid += f->cache[h].width;
    }
    f->age++;
    return i;
}

Point _string(Image *dst, Point pt, Image *src, Point sp, Font *f, char *s, Rune *rr, int len, Rectangle clipr,
    Image *bg, Point bgp, Drawop op)
{
    ushort cb[100], *c;
    int l, wid, m, n = 0;
    uchar *b;
    while (*s && n++ < 1000) {
        l = cache(f, &s, cb, 100, &wid);
        if (l <= 0)
            continue;
        _setdrawop(dst->display, op);
        m = 47 + 2 * l;
        if (bg)
            m += 4 + 2 * 4;
        b = bufimage(dst->display, m);
        if (b == nil)
            break;
        b[0] = bg ? 'x' : 's';
        BPLONG(b + 1, dst->id);
        BPLONG(b + 5, src->id);
        BPLONG(b + 9, f->cacheimage->id);
        BPLONG(b + 13, pt.x);
        BPLONG(b + 17, pt.y + f->ascent);
        BPLONG(b + 21, clipr.min.x);
        BPLONG(b + 25, clipr.min.y);
        BPLONG(b + 29, clipr.max.x);
        BPLONG(b + 33, clipr.max.y);
        BPLONG(b + 37, sp.x);
        BPLONG(b + 41, sp.y);
        BPSHORT(b + 45, l);
        b += 47;
        if (bg) {
            BPLONG(b, bg->id);
            BPLONG(b + 4, bgp.x);
            BPLONG(b + 8, bgp.y);
            b += 12;
        }
        for (c = cb; c < cb + l; c++, b += 2)
            BPSHORT(b, *c);
        pt.x += wid;
        bgp.x += wid;
    }
    return pt;
}

Point string(Image *d, Point p, Image *s, Point sp, Font *f, char *t)
{
    return _string(d, p, s, sp, f, t, nil, 0, d->clipr, nil, ZP, SoverD);
}

Point stringop(Image *d, Point p, Image *s, Point sp, Font *f, char *t, Drawop op)
{
    return _string(d, p, s, sp, f, t, nil, 0, d->clipr, nil, ZP, op);
}

Point stringbg(Image *d, Point p, Image *s, Point sp, Font *f, char *t, Image *bg, Point bp)
{
    return _string(d, p, s, sp, f, t, nil, 0, d->clipr, bg, bp, SoverD);
}

int stringwidth(Font *f, char *s)
{
    ushort cb[100];
    int w, n = 0, t = 0;
    while (*s && t++ < 1000) {
        cache(f, &s, cb, 100, &w);
        n += w;
    }
    return n;
}

Point stringsubfont(Image *b, Point p, Image *color, Subfont *f, char *cs)
{
    Fontchar *i;
    for (; *cs; cs++) {
        i = f->info + (uchar)*cs;
        draw(b, Rect(p.x + i->left, p.y + i->top, p.x + i->left + ((i + 1)->x - i->x), p.y + i->bottom), color, f->bits,
            Pt(i->x, i->top));
        p.x += i->width;
    }
    return p;
}
