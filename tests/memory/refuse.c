/* Refuses memory to the program that it is preloaded into.
 *
 * REFUSE_AT=N    refuses the program's request number N, counted from 1
 * REFUSE_FROM=N  refuses that one and each later one
 * REFUSE_OVER=N  refuses each request for more than N bytes
 * REFUSE_TOLD=F  makes the file F, empty, when it is loaded, and writes to it when it refuses a request
 *
 * Only requests that the executable itself makes count, and not those of the C library or of what loads programs:
 * which function asked is known by where it returns to.
 */
#define _GNU_SOURCE
#include <errno.h>
#include <fcntl.h>
#include <link.h>
#include <stdatomic.h>
#include <stdint.h>
#include <stdlib.h>
#include <unistd.h>

/* The C library's own names for its allocator, which it exports. */
void *__libc_malloc(size_t size);
void *__libc_calloc(size_t count, size_t size);
void *__libc_realloc(void *block, size_t size);
void *__libc_memalign(size_t alignment, size_t size);

static uintptr_t begin, end;
static unsigned long first, last;
static size_t least;
static const char *told;
static atomic_ulong requests;

/* The executable is the first object, and the only one that is looked at. */
static int find_executable(struct dl_phdr_info *object, size_t size, void *unused)
{
	(void)size, (void)unused;
	begin = UINTPTR_MAX;
	for (int i = 0; i < object->dlpi_phnum; i++) {
		const ElfW(Phdr) *part = &object->dlpi_phdr[i];
		uintptr_t start = object->dlpi_addr + part->p_vaddr;

		if (part->p_type != PT_LOAD)
			continue;
		begin = start < begin ? start : begin;
		end = start + part->p_memsz > end ? start + part->p_memsz : end;
	}
	return 1;
}

static void tell(const char *text, size_t length)
{
	int error = errno;
	int file = open(told, O_WRONLY | O_CREAT | O_APPEND | O_CLOEXEC, 0600);

	if (file < 0 || write(file, text, length) != (ssize_t)length)
		_exit(99);
	close(file);
	errno = error;
}

__attribute__((constructor)) static void prepare(void)
{
	const char *at = getenv("REFUSE_AT"), *from = getenv("REFUSE_FROM"), *over = getenv("REFUSE_OVER");

	told = getenv("REFUSE_TOLD");
	if (!told || !!at + !!from + !!over != 1)
		_exit(99);
	first = over ? 1 : strtoul(at ? at : from, NULL, 10);
	last = at ? first : ~0ul;
	least = over ? strtoul(over, NULL, 10) + 1 : 0;
	tell("", 0);
	dl_iterate_phdr(find_executable, NULL);
}

static int refuses(void *caller, size_t size)
{
	uintptr_t place = (uintptr_t)caller;
	unsigned long number;

	if (place < begin || place >= end || size < least)
		return 0;
	number = atomic_fetch_add(&requests, 1) + 1;
	if (number < first || number > last)
		return 0;
	if (number == first)
		tell("refused\n", 8);
	errno = ENOMEM;
	return 1;
}

#define REFUSES(size) refuses(__builtin_return_address(0), size)

void *malloc(size_t size)
{
	return REFUSES(size) ? NULL : __libc_malloc(size);
}

void *calloc(size_t count, size_t size)
{
	return REFUSES(count * size) ? NULL : __libc_calloc(count, size);
}

void *realloc(void *block, size_t size)
{
	return REFUSES(size) ? NULL : __libc_realloc(block, size);
}

void *aligned_alloc(size_t alignment, size_t size)
{
	return REFUSES(size) ? NULL : __libc_memalign(alignment, size);
}

void *memalign(size_t alignment, size_t size)
{
	return REFUSES(size) ? NULL : __libc_memalign(alignment, size);
}

int posix_memalign(void **block, size_t alignment, size_t size)
{
	void *made = REFUSES(size) ? NULL : __libc_memalign(alignment, size);

	if (!made)
		return ENOMEM;
	*block = made;
	return 0;
}
