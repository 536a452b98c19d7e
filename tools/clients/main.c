/*
 * program ADDRESS FOLDER WORD..: the calls of libdraw on a window of a rio9 server, and on one of Plan 9's own draw
 * device in this process. It prints a line for each row: its name, and what was seen. The address is as in dial(2); the
 * folder takes files. Words: parts=P,P..      pictures, input, deleted, bare, times, shapes, and constant beside shapes
 *   window=X,Y,X,Y   the window's rectangle on both sides
 *   size=W,H chan=C  the display that the server has, and the device is to have
 *   deep=N           the window stands in a rio in a window, so many deep
 *   count=N seed=N   how many shapes, and of which chance
 *   from=N           only those from the Nth on are drawn, counted from 0
 */
#include "harness.h"

/* the device's own small rio: one window with a border and a name */
static int devwindow(Rectangle r, char *name)
{
    Display *d = initdisplay("#i", "/nosuch", nil);
    Screen *sc;
    Dimage *w, *grey, *edge;
    if (d == nil)
        return -1;
    d->screenimage = d->image;
    grey = allocimage(d, Rect(0, 0, 1, 1), d->image->chan, 1, 0x777777FF);
    sc = allocscreen(d->image, grey, 0);
    if (sc == nil)
        return -1;
    w = allocwindow(sc, r, Refbackup, DWhite);
    if (w == nil)
        return -1;
    edge = allocimage(d, Rect(0, 0, 1, 1), XRGB32, 1, 0x55AAAAFF);
    border(w, w->r, 4, edge, ZP);
    flushimage(d, 1);
    return nameimage(w, name, 1) ? 0 : -1;
}

/* the value of a word name=value, nil if it is another */
static char *value(char *word, char *name)
{
    int n = strlen(name);
    return strncmp(word, name, n) == 0 && word[n] == '=' ? word + n + 1 : nil;
}

static Rectangle rectangle(char *v)
{
    int n[4], i;
    memset(n, 0, sizeof n);
    for (i = 0; i < 4; i++) {
        n[i] = strtol(v, &v, 10);
        if (*v == ',')
            v++;
    }
    return Rect(n[0], n[1], n[2], n[3]);
}

static void read1(char *word)
{
    char *v;
    if (v = value(word, "parts"))
        words.parts = v;
    else if (v = value(word, "window"))
        words.window = rectangle(v);
    else if (v = value(word, "size"))
        words.size = rectangle(v).min;
    else if (v = value(word, "chan"))
        words.chan = v;
    else if (v = value(word, "deep"))
        words.deep = atoi(v);
    else if (v = value(word, "count"))
        words.count = atoi(v);
    else if (v = value(word, "from"))
        words.from = atoi(v);
    else if (v = value(word, "seed"))
        words.seed = strtoul(v, nil, 10);
}

static void start(void)
{
    eve = "glenda";
    gchan = strtochan(words.chan);
    gsize = words.size;
    osinit();
    procinit0();
    printinit();
    screenputs = hostputs;
    chandevreset();
    chandevinit();
    quotefmtinstall();
    if (bind("#c", "/dev", MBEFORE) < 0 || bind("#I", "/net", MBEFORE) < 0)
        panic("bind: %r");
    open("/dev/cons", OREAD);
    open("/dev/cons", OWRITE);
    open("/dev/cons", OWRITE);
}

/* the windows of both sides, on which rows draw; 0 if one could not be had, which its row tells */
static int connect(void)
{
    Side *sides[] = {&rio9, &device};
    char an[200], name[60];
    int i, k;
    k = mnt("/mnt", "");
    row("mount of the device tree", "%s", k < 0 ? er() : "ok");
    if (k < 0 || innermost(an, sizeof an, words.deep) == nil) {
        row("mount of a window (newwindow)", "no rio so deep: %s", er());
        return 0;
    }
    k = mnt("/root", an);
    row("mount of a window (newwindow)", "%s", k < 0 ? er() : "ok");
    if (k < 0 || devwindow(words.window, "window.9.9") < 0)
        return 0;
    for (i = 0; i < nelem(sides); i++) {
        k = begin(sides[i]);
        snprint(name, sizeof name, "%s: initdraw, getwindow", sides[i]->name);
        row(name, "%s; %dx%d; refused %d %s", k < 0 ? er() : "ok", sides[i]->w ? Dx(sides[i]->w->r) : 0,
            sides[i]->w ? Dy(sides[i]->w->r) : 0, ldrefusals, ldlast);
        if (k < 0)
            return 0;
    }
    return 1;
}

/* a picture of some of it, as a user would see it */
static void picture(void)
{
    use(&rio9);
    draw(rio9.w, rio9.w->r, rio9.d->white, nil, ZP);
    drawlayers(&rio9);
    drawtext(&rio9);
    flushimage(rio9.d, 1);
    shot("screen.bit");
    undo();
}

static void parts(void)
{
    if (has("pictures")) {
        rows(drawing);
        rows(texts);
        rows(images);
        rows(windows);
        picture();
    }
    if (has("shapes"))
        shapes();
    if (has("times"))
        times();
    if (has("input"))
        input();
    if (has("bare"))
        bare();
    if (has("deleted"))
        deleted();
}

int main(int argc, char **argv)
{
    int i, good;
    words.address = argc > 1 ? argv[1] : "127.0.0.1!5640";
    words.folder = argc > 2 ? argv[2] : "/tmp";
    words.parts = "pictures";
    words.chan = "x8r8g8b8";
    words.size = Pt(640, 480);
    words.window = Rect(10, 10, 210, 160);
    words.count = 100;
    words.seed = 1;
    for (i = 3; i < argc; i++)
        read1(argv[i]);
    start();
    writefiles();
    good = connect();
    if (good)
        parts();
    hostexit(good ? 0 : 1);
    return 0;
}
