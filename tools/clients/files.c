/* Files: of the server's trees, and those of fonts and images that rows read. */
#include "harness.h"

/* windows that host a rio, from the root rio's inward, and where they are mounted */
static char *mounts[] = {"/boot", "/proc", "/srv"};
static int hosts[nelem(mounts)];
static int nhosts;

int mnt(char *where, char *aname)
{
    char a[64];
    int fd;
    snprint(a, sizeof a, "tcp!%s", words.address);
    fd = dial(a, nil, nil, nil);
    return fd < 0 ? -1 : mount(fd, -1, where, MREPL, aname);
}

long rd(char *p, char *b, int n)
{
    int fd = open(p, OREAD);
    long k;
    if (fd < 0)
        return -1;
    k = read(fd, b, n - 1);
    if (k >= 0)
        b[k] = 0;
    close(fd);
    return k;
}

long wr(char *p, char *s)
{
    int fd = open(p, OWRITE);
    long k;
    if (fd < 0)
        return -1;
    k = write(fd, s, strlen(s));
    close(fd);
    return k;
}

/* the display as the device tree's screen has it, into the folder */
void shot(char *name)
{
    static char b[65536];
    char p[300];
    int s, fd, k;
    snprint(p, sizeof p, "#U%s/%s", words.folder, name);
    s = open("/mnt/screen", OREAD);
    fd = create(p, OWRITE, 0644);
    while ((k = read(s, b, sizeof b)) > 0)
        write(fd, b, k);
    close(s);
    close(fd);
}

/* the path of the window that hosts the innermost rio */
static void path(char *p, int n)
{
    int i, k = 0;
    p[0] = 0;
    for (i = 0; i < nhosts; i++)
        k += snprint(p + k, n - k, i ? "/%d" : "%d", hosts[i]);
}

/* a window that hosts a rio, in the innermost one there is; it lives as long as its mount */
static int another(void)
{
    char line[200], p[100], file[40];
    if (nhosts == nelem(mounts))
        return -1;
    path(p, sizeof p);
    snprint(line, sizeof line, "%s%snew -r %d %d 620 460", p, nhosts ? "/" : "", 5 * nhosts, 5 * nhosts);
    snprint(file, sizeof file, "%s/winid", mounts[nhosts]);
    if (mnt(mounts[nhosts], line) < 0 || rd(file, p, sizeof p) < 0)
        return -1;
    hosts[nhosts++] = atoi(p);
    path(p, sizeof p);
    snprint(line, sizeof line, "host -id %s", p);
    return wr("/mnt/wctl", line);
}

/* the attach name of a new window in a rio so many deep; nil if there is no such rio */
char *innermost(char *a, int n, int deep)
{
    Rectangle r = words.window;
    char p[100];
    while (nhosts < deep)
        if (another() < 0)
            return nil;
    path(p, sizeof p);
    snprint(a, n, "%s%snew -r %d %d %d %d", p, nhosts ? "/" : "", r.min.x, r.min.y, r.max.x, r.max.y);
    return a;
}

static int made(char *name)
{
    char p[300];
    snprint(p, sizeof p, "#U%s/%s", words.folder, name);
    return create(p, OWRITE, 0644);
}

/* the default font: as it is, packed by libmemdraw, and with grey of 8 bits, as fonts made of outlines are */
static int subfonts(void)
{
    uchar *bits = defontdata + 60, *d;
    Rectangle r = Rect(0, 0, atoi((char *)defontdata + 36), atoi((char *)defontdata + 48));
    Memimage *m = allocmemimage(r, GREY1), *g = allocmemimage(r, GREY8);
    char h[61];
    int fd, i, n = loadmemimage(m, r, bits, sizeofdefont - 60);
    fd = made("plain.0000");
    write(fd, defontdata, sizeofdefont);
    close(fd);
    fd = made("packed.0000");
    writememimage(fd, m);
    write(fd, bits + n, sizeofdefont - 60 - n);
    close(fd);
    memimagedraw(g, g->r, m, ZP, nil, ZP, S);
    d = byteaddr(g, g->r.min);
    for (i = 0; i < Dx(r) * Dy(r); i++)
        d[i] = d[i] * 3 / 4;
    fd = made("grey8.0000");
    snprint(h, sizeof h, "%11s %11d %11d %11d %11d ", "k8", 0, 0, r.max.x, r.max.y);
    write(fd, h, 60);
    for (i = 0; i < Dy(r); i++)
        write(fd, byteaddr(g, Pt(0, i)), Dx(r));
    write(fd, bits + n, sizeofdefont - 60 - n);
    close(fd);
    return n;
}

/* font files of them; the last two tell a height, and an ascent, that are less than their subfont's */
static void fonts(int n)
{
    static char *name[] = {"plain", "packed", "grey8", "short", "low"};
    static char *sub[] = {"plain", "packed", "grey8", "plain", "plain"};
    char *sh = (char *)defontdata + 60 + n, p[100], h[100];
    int i, fd;
    for (i = 0; i < nelem(name); i++) {
        snprint(p, sizeof p, "%s.font", name[i]);
        fd = made(p);
        n = snprint(h, sizeof h, "%d %d\n0x0000 0x00FF %s.0000\n", atoi(sh + 12) - 4 * (i == 3),
            atoi(sh + 24) - (i == 4), sub[i]);
        write(fd, h, n);
        close(fd);
    }
}

void writefiles(void)
{
    Memimage *m;
    uchar *d;
    char h[61];
    int fd, i;
    memimageinit();
    fonts(subfonts());
    m = allocmemimage(Rect(0, 0, 90, 90), XRGB32);
    d = byteaddr(m, m->r.min);
    for (i = 0; i < 90 * 90 * 4; i++)
        d[i] = (i % 360) / 3 + i / 360;
    fd = made("packed.image");
    writememimage(fd, m);
    close(fd);
    fd = made("plain.image");
    snprint(h, sizeof h, "%11s %11d %11d %11d %11d ", "x8r8g8b8", 0, 0, 90, 90);
    write(fd, h, 60);
    write(fd, d, 90 * 90 * 4);
    close(fd);
}
