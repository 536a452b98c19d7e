/* Preloaded by refused_memory.py: the request for memory whose number is in REFUSE, counted from 1, finds none. The file that
   ASKED names, if there is one, gets how many there were. Needs: glibc. */

#include <errno.h>
#include <fcntl.h>
#include <stdio.h>
#include <stdlib.h>
#include <unistd.h>

extern void *__libc_malloc(size_t size);
extern void *__libc_calloc(size_t count, size_t size);
extern void *__libc_realloc(void *old, size_t size);
extern void *__libc_memalign(size_t alignment, size_t size);

static unsigned long asked;

/* Tells in a file how many requests there were so far, since not every program ends by exit. */
static void tell(const char *path, unsigned long number)
{
	char text[32];
	int file = open(path, O_WRONLY | O_CREAT, 0600);

	if (file >= 0) {
		pwrite(file, text, snprintf(text, sizeof text, "%lu\n", number), 0);
		close(file);
	}
}

/* Counts a request, and tells whether it is the one that finds nothing. */
static int is_refused(void)
{
	const char *refuse = getenv("REFUSE"), *path = getenv("ASKED");
	unsigned long number = __atomic_add_fetch(&asked, 1, __ATOMIC_RELAXED);

	if (path)
		tell(path, number);
	return number == (refuse ? strtoul(refuse, NULL, 10) : 0);
}

static void *refused(void)
{
	errno = ENOMEM;
	return NULL;
}

void *malloc(size_t size)
{
	return is_refused() ? refused() : __libc_malloc(size);
}

void *calloc(size_t count, size_t size)
{
	return is_refused() ? refused() : __libc_calloc(count, size);
}

void *realloc(void *old, size_t size)
{
	return is_refused() ? refused() : __libc_realloc(old, size);
}

void *memalign(size_t alignment, size_t size)
{
	return is_refused() ? refused() : __libc_memalign(alignment, size);
}

void *aligned_alloc(size_t alignment, size_t size)
{
	return memalign(alignment, size);
}

int posix_memalign(void **found, size_t alignment, size_t size)
{
	void *memory = memalign(alignment, size);

	if (memory == NULL)
		return ENOMEM;
	*found = memory;
	return 0;
}
