/*
 * The screen of drawterm's own draw device: an image in memory, of the size and the channels that the words say. NINE
 * means the sources of drawterm-9front.
 */
#include "u.h"
#include "lib.h"
#include "kern/dat.h"
#include "kern/fns.h"
#include <draw.h>
#include <memdraw.h>
#include <memlayer.h>
#include <cursor.h>
#include "kern/screen.h"

Memimage *gscreen;
ulong gchan;
Point gsize;
#ifdef NINE
extern Mouseinfo mouse;
extern Cursorinfo cursor;
Cursorinfo arrow;
Screeninfo screen;
void screeninit(void)
{
    memimageinit();
    gscreen = allocmemimage(Rpt(Pt(0, 0), gsize), gchan);
    memfillcolor(gscreen, 0x777777FF);
}

Memdata *attachscreen(Rectangle *r, ulong *chan, int *depth, int *width, int *soft)
{
    if (gscreen == nil)
        screeninit();
    *r = gscreen->r;
    *chan = gscreen->chan;
    *depth = gscreen->depth;
    *width = gscreen->width;
    *soft = 1;
    gscreen->data->ref++;
    return gscreen->data;
}

void flushmemscreen(Rectangle r)
{
}

void getcolor(ulong i, ulong *r, ulong *g, ulong *b)
{
    *r = *g = *b = 0;
}

void setcolor(ulong i, ulong r, ulong g, ulong b)
{
}

void mouseset(Point p)
{
}

void setcursor(void)
{
}

void screensize(Rectangle r, ulong c)
{
}

void screenload(Rectangle r, int d, uchar *p, Point q, int s)
{
}

#else
Mouseinfo mouse;
Cursorinfo cursor;
Screeninfo screen;
uchar *attachscreen(Rectangle *r, ulong *chan, int *depth, int *width, int *soft, void **X)
{
    if (gscreen == nil) {
        memimageinit();
        gscreen = allocmemimage(Rpt(Pt(0, 0), gsize), gchan);
        memfillcolor(gscreen, 0x777777FF);
    }
    *r = gscreen->r;
    *chan = gscreen->chan;
    *depth = gscreen->depth;
    *width = gscreen->width;
    *soft = 1;
    *X = nil;
    return gscreen->data->bdata;
}

void flushmemscreen(Rectangle r)
{
}

void getcolor(ulong i, ulong *r, ulong *g, ulong *b)
{
    *r = *g = *b = 0;
}

void setcolor(ulong i, ulong r, ulong g, ulong b)
{
}

Memimage *allocmemimage(Rectangle r, ulong chan)
{
    return _allocmemimage(r, chan);
}

void freememimage(Memimage *m)
{
    _freememimage(m);
}

void memfillcolor(Memimage *m, ulong v)
{
    _memfillcolor(m, v);
}

int loadmemimage(Memimage *i, Rectangle r, uchar *d, int n)
{
    return _loadmemimage(i, r, d, n);
}

int cloadmemimage(Memimage *i, Rectangle r, uchar *d, int n)
{
    return _cloadmemimage(i, r, d, n);
}

ulong pixelbits(Memimage *m, Point p)
{
    return _pixelbits(m, p);
}

void memimageinit(void)
{
    static int did;
    if (!did) {
        did = 1;
        _memimageinit();
    }
}

void memimagedraw(Memimage *dst, Rectangle r, Memimage *src, Point sp, Memimage *mask, Point mp, int op)
{
    Memdrawparam *p = _memimagedrawsetup(dst, r, src, sp, mask, mp, op);
    if (p != nil)
        _memimagedraw(p);
}

#endif
int _compblocksize(Rectangle r, int depth)
{
    int n = 2 * bytesperline(r, depth);
    return n < NCBLOCK ? NCBLOCK : n;
}

void _twiddlecompressed(uchar *b, int n)
{
    for (; n > 0; n--, b++)
        ;
}
