/* Rows of one side alone: the files of a window as mouse(2), keyboard(2) and rio(4) use them, and how a window ends. */
#include "harness.h"

/* what the mouse does, at a point of the window's inside counted from (70, 50) as (0, 0) */
static char *click(int x, int y, int b)
{
    static char m[64];
    Point p = subpt(rio9.w->r.min, Pt(70, 50));
    snprint(m, sizeof m, "m%11d %11d %11d %11d ", x + p.x, y + p.y, b, 9);
    return wr("/mnt/mousein", m) < 0 ? er() : "ok";
}

static void reads(void *v)
{
    Waiting *r = v;
    r->opened = 1;
    r->k = read(r->fd, r->b, r->n);
    if (r->k < 0)
        rerrstr(r->e, ERRMAX);
    else
        r->b[r->k] = 0;
    r->done = 1;
}

static Waiting *reader(int fd, int n)
{
    Waiting *r = mallocz(sizeof *r, 1);
    r->fd = fd;
    r->n = n;
    kproc("reader", reads, r);
    while (!r->opened)
        osmsleep(10);
    return r;
}

static int waitfor(Waiting *r, int ms)
{
    for (; ms > 0 && !r->done; ms -= 10)
        osmsleep(10);
    return r->done;
}

static Waiting *event(int m, int ms)
{
    Waiting *r = reader(m, 1 + 5 * 12);
    waitfor(r, ms);
    return r;
}

static void mouse(int m)
{
    Waiting *r;
    int k;
    click(100, 80, 0);
    click(100, 80, 1);
    r = event(m, 3000);
    row("readmouse: a press (read of 61)", "%ld %.1s %s", r->k, r->b,
        strstr(r->b, " 1           9") ? "button 1" : "other");
    click(110, 85, 1);
    click(110, 85, 0);
    r = event(m, 3000);
    row("readmouse: the next event", "%ld %.1s", r->k, r->b);
    r = event(m, 700);
    if (!r->done) {
        click(112, 85, 0);
        waitfor(r, 2000);
    }
    row("readmouse: and the next", "%ld %.1s", r->k, r->b);
    k = fprint(m, "m%d %d", 50, 60);
    row("moveto: write m50 60 to mouse", "%d %s", k, k < 0 ? er() : "taken");
    r = event(m, 300);
    row("moveto: an event of it", "%s", r->done ? "comes" : "none");
    click(113, 86, 0);
    waitfor(r, 2000);
}

/* each rune as the keyboard's process reads it; hold is taken and does nothing */
static void keyboard(int kb, int c)
{
    Waiting *r;
    char t[200];
    int i;
    t[0] = 0;
    wr("/mnt/kbdin", "a\303\244\xe2\x82\xac");
    for (i = 0; i < 3; i++) {
        r = reader(kb, 12);
        waitfor(r, 2000);
        snprint(t + strlen(t), sizeof t - strlen(t), "%ld ", r->done ? r->k : -9);
    }
    row("keyboard: runes one by one, raw", "%s", t);
    row("consctl: holdon", "%ld", write(c, "holdon", 6));
    wr("/mnt/kbdin", "\177");
    r = reader(kb, 12);
    waitfor(r, 2000);
    row("the key DEL: a note to the program, or a key", "%s", r->done && r->b[0] == 0x7f ? "a key" : "none");
    write(c, "rawoff", 6);
    r = reader(kb, 12);
    wr("/mnt/kbdin", "held\n");
    row("hold: a line typed while it is on", "%s", waitfor(r, 1000) ? "comes at once" : "is held");
}

static void newsize(int m)
{
    Waiting *r;
    Rectangle o = rio9.w->r;
    int k = wr("/root/wctl", "resize -dx 300 -dy 160");
    row("wctl resize", "%s", k > 0 ? "ok" : er());
    r = event(m, 3000);
    if (r->b[0] != 'r')
        r = event(m, 2000);
    row("resize event", "%c", r->b[0]);
    use(&rio9);
    draw(rio9.w, o, rio9.d->black, nil, ZP);
    k = flushimage(rio9.d, 1);
    row("draw on the old window image after a resize", "%s", k < 0 ? ldlast : "accepted");
    use(&rio9);
    k = gengetwindow(rio9.d, rio9.winname, &rio9.w, &rio9.s, Refnone);
    row("getwindow after a resize", "%d; refused %d %s; %dx%d", k, ldrefusals, ldlast, Dx(rio9.w->r), Dy(rio9.w->r));
    string(rio9.w, at(&rio9, 5, 5), rio9.d->black, ZP, rio9.f, "after the resize");
    row("string after it, with the old font cache", "%s", flushimage(rio9.d, 1) < 0 ? ldlast : "ok");
    wr("/root/wctl", "hide");
    osmsleep(100);
    row("wctl hide: event", "%s", event(m, 500)->done ? "comes" : "none");
    use(&rio9);
    draw(rio9.w, rio9.w->r, rio9.d->black, nil, ZP);
    row("draw while hidden", "%s", flushimage(rio9.d, 1) < 0 ? ldlast : "ok");
    wr("/root/wctl", "unhide");
}

/* a shell's output goes to cons: rio9 keeps it in text, and nothing draws it */
static void output(void)
{
    static uchar p[Big], q[Big];
    char b[200];
    int k, n = bytesperline(rio9.w->r, rio9.w->depth) * Dy(rio9.w->r);
    draw(rio9.w, rio9.w->r, rio9.d->white, nil, ZP);
    flushimage(rio9.d, 1);
    unloadimage(rio9.w, rio9.w->r, p, n);
    k = wr("/root/cons", "echo of a shell\n");
    unloadimage(rio9.w, rio9.w->r, q, n);
    row("a shell's output: write of cons", "%d taken; in text: %s; pixels: %s", k,
        rd("/root/text", b, sizeof b) > 0 && strstr(b, "echo of a shell") ? "yes" : "no",
        memcmp(p, q, n) ? "changed" : "as before");
}

static void otherfiles(void)
{
    static char *files[] = {
        "kbd", "kbmap", "mousectl", "wdir", "refresh", "time", "plumb", "text", "winid", "screen", "window"};
    char b[200], t[300];
    int i, fd;
    t[0] = 0;
    for (i = 0; i < nelem(files); i++) {
        snprint(b, sizeof b, "/root/%s", files[i]);
        fd = open(b, OREAD);
        snprint(t + strlen(t), sizeof t - strlen(t), "%s %s; ", files[i], fd >= 0 ? "there" : "no");
        if (fd >= 0)
            close(fd);
    }
    row("other files of rio(4) and 9front in a window", "%s", t);
    rd("/root/label", b, sizeof b);
    row("label set by initdraw", "%s", b);
    wr("/root/snarf", "snarfed");
    rd("/root/snarf", b, sizeof b);
    row("putsnarf, getsnarf (/dev/snarf)", "%s", b);
}

/* setcursor writes 72 bytes; a shorter write gives the arrow back */
static void cursorfile(void)
{
    uchar b[72], c[100];
    int i, k, fd = open("/root/cursor", ORDWR | OCEXEC);
    if (fd < 0) {
        row("initmouse: open cursor (setcursor)", "%s", er());
        return;
    }
    for (i = 0; i < sizeof b; i++)
        b[i] = i * 7;
    k = write(fd, b, sizeof b);
    seek(fd, 0, 0);
    i = read(fd, c, sizeof c);
    row("initmouse: open cursor (setcursor)", "ok; %d written, %d read back%s", k, i,
        i == sizeof b && memcmp(b, c, sizeof b) == 0 ? " the same" : "");
    write(fd, "", 0);
    close(fd);
}

void input(void)
{
    int m = open("/root/mouse", ORDWR | OCEXEC), kb, c;
    row("initmouse: open mouse ORDWR", "%s", m >= 0 ? "ok" : er());
    cursorfile();
    kb = open("/root/cons", ORDWR | OCEXEC);
    c = open("/root/consctl", OWRITE | OCEXEC);
    row("initkeyboard: cons, consctl, rawon", "%s %ld", kb >= 0 && c >= 0 ? "ok" : er(), write(c, "rawon", 5));
    mouse(m);
    keyboard(kb, c);
    newsize(m);
    output();
    otherfiles();
    close(m);
    close(c);
    close(kb);
}

/* the colour at the display's lower right corner, which no window of these runs covers */
static void corner(char *name)
{
    Dimage *i = rio9.d->image;
    uchar px[4];
    unloadimage(i, Rpt(subpt(i->r.max, Pt(1, 1)), i->r.max), px, sizeof px);
    row(name, "%.2ux%.2ux%.2ux", px[2], px[1], px[0]);
}

/* what a program meets whose window is deleted under it, and what it leaves behind */
void deleted(void)
{
    Dimage *i;
    Point size = rio9.d->image->r.max;
    Waiting *r = reader(open("/root/cons", OREAD), 100);
    int k = wr("/root/wctl", "delete");
    waitfor(r, 2000);
    row("a read of cons that waits as the window goes", "%s", r->done ? r->e : "goes on");
    row("a read of mouse after it", "%s", open("/root/mouse", OREAD) < 0 ? er() : "ok");
    use(&rio9);
    draw(rio9.w, rio9.w->r, rio9.d->black, nil, ZP);
    k = flushimage(rio9.d, 1);
    row("draw after the window was deleted", "%s", k < 0 ? ldlast : "accepted");
    i = allocimage(rio9.d, Rect(0, 0, 1, 1), XRGB32, 1, DRed);
    row("allocimage after it", "%s", i ? "ok" : er());
    use(&rio9);
    k = gengetwindow(rio9.d, rio9.winname, &rio9.w, &rio9.s, Refnone);
    row("getwindow after it", "%d %s; %s", k, er(),
        rio9.w && Dx(rio9.w->r) == size.x && Dy(rio9.w->r) == size.y ? "the whole display" : "a part");
    if (rio9.w == nil || Dx(rio9.w->r) != size.x)
        return;
    freeimage(rio9.w);
    freescreen(rio9.s);
    flushimage(rio9.d, 1);
    corner("the desktop when that is gone");
    draw(rio9.d->image, rio9.d->image->r, col(rio9.d, 0x777777FF), nil, ZP);
    flushimage(rio9.d, 1);
    corner("the same after the display was filled");
}

/* a program that has the device tree alone: no winname, so the display's own image is its screen */
void bare(void)
{
    Dimage *w = nil;
    Screen *sc = nil;
    int k;
    use(&rio9);
    k = geninitdraw("/mnt", nil, nil, "bare", "/mnt", Refnone);
    row("initdraw in the device tree", "%s %s", k < 0 ? er() : "ok", ldlast);
    if (k < 0)
        return;
    k = gengetwindow(display, "/mnt/winname", &w, &sc, Refnone);
    row("getwindow there", "%d %s", k, w && Dx(w->r) == words.size.x ? "the whole display" : ldlast);
    row("its mouse", "%s", open("/mnt/mouse", OREAD) < 0 ? er() : "ok");
    freeimage(w);
    freescreen(sc);
    closedisplay(display);
    use(&rio9);
    draw(rio9.d->image, rio9.d->image->r, col(rio9.d, 0x777777FF), nil, ZP);
    flushimage(rio9.d, 1);
}
