/* The devices that the kernel of this program has. */
#include "u.h"
#include "lib.h"
#include "kern/dat.h"
#include "kern/fns.h"
#include "kern/error.h"
extern Dev consdevtab, rootdevtab, pipedevtab, ipdevtab, mntdevtab, drawdevtab, fsdevtab;
Dev *devtab[] = {&rootdevtab, &consdevtab, &pipedevtab, &ipdevtab, &mntdevtab, &drawdevtab, &fsdevtab, 0};
