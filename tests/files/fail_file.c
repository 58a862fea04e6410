/* Has one call of the program that it is preloaded into go wrong, counted from 1: FAIL_OPEN=N the open number N, and likewise FAIL_RENAME,
   FAIL_LINK, FAIL_UNLINK, FAIL_WRITE, FAIL_SYNC, FAIL_LOCK, FAIL_CLOSE and FAIL_TRUNCATE. It fails by the system's error of the number
   ERROR, or else by EIO. FAIL_SYNC_OF=NAME fails each fsync of a file whose path ends with NAME, and with SLOW_SYNC=SECONDS each fsync
   takes so long. The openings of / and below /proc aren't counted: the folder that stands in the place of a closed stream, and the file
   of a stop, which isn't there in each program. In place of that
     KILL=before   kills the program before the call,
     KILL=after    kills it after the call,
     KILL=power    kills it before the call, and cuts each file that was written to back to what was synced of it,
     COME=FILE     makes FILE before the call, if there is none, to hold "came"; the call goes on.
   MET=FILE is made once the call has come, and holds "came" if a FILE was made so. With TOLD=FILE each fsync and each write to standard
   output adds a line to FILE, and with PATHS=1 the line of an fsync names the file. */
#define _GNU_SOURCE
#include <dlfcn.h>
#include <errno.h>
#include <fcntl.h>
#include <limits.h>
#include <sched.h>
#include <signal.h>
#include <stdarg.h>
#include <stdatomic.h>
#include <stdio.h>
#include <stdlib.h>
#include <string.h>
#include <sys/stat.h>
#include <sys/syscall.h>
#include <time.h>
#include <unistd.h>

#define NEXT(name) ((__typeof__(&name))dlsym(RTLD_NEXT, #name))

enum fate { GOES_ON, FAILS, IS_LAST };
enum { MOST_FILES = 1024, KEPT_FROM = 512 };

static atomic_ulong opens, renames, links, unlinks, writes, syncs, locks, closes, truncates;

/* Of each open file that was written to, how many of its bytes are synced. */
static atomic_int is_unsynced[MOST_FILES];
static atomic_long synced[MOST_FILES];

/* Adds a text to a file, by no call that is counted; whether that could be opened, by these flags too. */
static int add(const char *path, const char *text, int flags)
{
	int file = path ? syscall(SYS_open, path, O_WRONLY | O_CREAT | O_APPEND | O_CLOEXEC | flags, 0666) : -1;

	if (file < 0)
		return 0;
	if (syscall(SYS_write, file, text, strlen(text)) < 0)
		abort();
	syscall(SYS_close, file);
	return 1;
}

/* Whether the power is off: no other thread makes a call from then on. And how many threads are in a write. */
static atomic_int is_off, writing;

static void wait_while_off(void)
{
	while (is_off)
		pause();
}

static void lose_what_is_unsynced(void)
{
	is_off = 1;
	while (writing)
		sched_yield();
	for (int file = 0; file < MOST_FILES; file++)
		if (is_unsynced[file])
			syscall(SYS_ftruncate, file, synced[file]);
}

/* What becomes of a call of this name. Where it fails, errno says why. */
static enum fate fate_of(const char *name, atomic_ulong *calls)
{
	const char *said = getenv(name), *error = getenv("ERROR"), *ends = getenv("KILL"), *comes = getenv("COME");

	wait_while_off();
	if (!said || atomic_fetch_add(calls, 1) + 1 != strtoul(said, NULL, 10))
		return GOES_ON;
	add(getenv("MET"), comes && add(comes, "came", O_EXCL) ? "came" : "", 0);
	if (comes)
		return GOES_ON;
	if (ends && strcmp(ends, "after") == 0)
		return IS_LAST;
	if (ends) {
		if (strcmp(ends, "power") == 0)
			lose_what_is_unsynced();
		kill(getpid(), SIGKILL);
	}
	errno = error ? atoi(error) : EIO;
	return FAILS;
}

static int after(enum fate fate, int result)
{
	if (fate == IS_LAST)
		kill(getpid(), SIGKILL);
	return result;
}

/* Puts the path of an open file, which has less than PATH_MAX bytes, and a 0 at its end. */
static char *put_path(char *end, int file)
{
	char link[64];
	ssize_t length;

	snprintf(link, sizeof link, "/proc/self/fd/%d", file);
	length = readlink(link, end, PATH_MAX - 1);
	end += length > 0 ? length : 0;
	*end = 0;
	return end;
}

/* Whether an open file is named in the environment by the end of its path. */
static int is_named(const char *name, int file)
{
	const char *wanted = getenv(name);
	char path[PATH_MAX], *end = put_path(path, file);

	return wanted && end - path >= (ssize_t)strlen(wanted) && strcmp(end - strlen(wanted), wanted) == 0;
}

static void tell(const char *what, int file)
{
	const char *name = getenv("TOLD");
	char line[PATH_MAX + 64] = "", *end = stpcpy(line, what);

	if (!name)
		return;
	if (file >= 0 && getenv("PATHS")) {
		*end++ = ' ';
		end = put_path(end, file);
	}
	strcpy(end, "\n");
	add(name, line, 0);
}

int open(const char *path, int flags, ...)
{
	int is_own = strcmp(path, "/") == 0 || strncmp(path, "/proc/", 6) == 0;
	enum fate fate = is_own ? GOES_ON : fate_of("FAIL_OPEN", &opens);
	va_list more;
	mode_t mode;

	va_start(more, flags);
	mode = flags & O_CREAT ? va_arg(more, mode_t) : 0;
	va_end(more);
	return fate == FAILS ? -1 : after(fate, NEXT(open)(path, flags, mode));
}

int rename(const char *from, const char *to)
{
	enum fate fate = fate_of("FAIL_RENAME", &renames);

	return fate == FAILS ? -1 : after(fate, NEXT(rename)(from, to));
}

int link(const char *from, const char *to)
{
	enum fate fate = fate_of("FAIL_LINK", &links);

	return fate == FAILS ? -1 : after(fate, NEXT(link)(from, to));
}

int linkat(int folder, const char *from, int other, const char *to, int flags)
{
	enum fate fate = fate_of("FAIL_LINK", &links);

	return fate == FAILS ? -1 : after(fate, NEXT(linkat)(folder, from, other, to, flags));
}

int unlink(const char *path)
{
	enum fate fate = fate_of("FAIL_UNLINK", &unlinks);

	return fate == FAILS ? -1 : after(fate, NEXT(unlink)(path));
}

int flock(int file, int operation)
{
	enum fate fate = fate_of("FAIL_LOCK", &locks);

	return fate == FAILS ? -1 : after(fate, NEXT(flock)(file, operation));
}

int ftruncate(int file, off_t size)
{
	enum fate fate = fate_of("FAIL_TRUNCATE", &truncates);

	return fate == FAILS ? -1 : after(fate, NEXT(ftruncate)(file, size));
}

/* What was written to a file up to this size is synced, by whichever descriptor. */
static void remember_synced(const struct stat *file)
{
	struct stat other;

	for (int number = 0; number < MOST_FILES; number++)
		if (is_unsynced[number] && fstat(number, &other) == 0 && other.st_dev == file->st_dev && other.st_ino == file->st_ino) {
			synced[number] = file->st_size;
			is_unsynced[number] = other.st_size > file->st_size;
		}
}

/* Waits as long as SLOW_SYNC says, whatever signals come: a wait for a disk isn't interrupted. */
static void wait_for_disk(void)
{
	const char *seconds = getenv("SLOW_SYNC");
	struct timespec left = { seconds ? atoi(seconds) : 0, 0 };

	while (nanosleep(&left, &left) != 0)
		;
}

static int synced_by(int (*sync)(int), int file)
{
	enum fate fate;
	struct stat status;

	tell("sync", file);
	wait_for_disk();
	fate = fate_of("FAIL_SYNC", &syncs);
	if (is_named("FAIL_SYNC_OF", file)) {
		errno = EIO;
		return -1;
	}
	if (fate == FAILS || fstat(file, &status) != 0 || sync(file) != 0)
		return -1;
	remember_synced(&status);
	return after(fate, 0);
}

int fsync(int file)
{
	return synced_by(NEXT(fsync), file);
}

int fdatasync(int file)
{
	return synced_by(NEXT(fdatasync), file);
}

ssize_t write(int file, const void *bytes, size_t count)
{
	enum fate fate;
	struct stat status;
	ssize_t written;

	if (file == 1)
		tell("line", -1);
	fate = fate_of("FAIL_WRITE", &writes);
	if (fate == FAILS)
		return -1;
	writing++;
	if (is_off) {
		writing--;
		wait_while_off();
	}
	if (file > 2 && file < MOST_FILES && !is_unsynced[file] && fstat(file, &status) == 0 && S_ISREG(status.st_mode)) {
		synced[file] = status.st_size;
		is_unsynced[file] = 1;
	}
	written = NEXT(write)(file, bytes, count);
	writing--;
	after(fate, 0);
	return written;
}

/* What is closed unsynced can still be lost: it stays open by another number, and not by the descriptor that was locked. */
static void keep_open(int file)
{
	char path[64];
	int kept;

	snprintf(path, sizeof path, "/proc/self/fd/%d", file);
	kept = syscall(SYS_open, path, O_WRONLY | O_CLOEXEC);
	if (kept >= 0) {
		int high = fcntl(kept, F_DUPFD_CLOEXEC, KEPT_FROM);

		if (high >= 0 && high < MOST_FILES) {
			synced[high] = synced[file];
			is_unsynced[high] = 1;
		}
		syscall(SYS_close, kept);
	}
	is_unsynced[file] = 0;
}

/* A close that fails has closed the file. */
int close(int file)
{
	enum fate fate = fate_of("FAIL_CLOSE", &closes);
	int closed, error = errno;

	if (file >= 0 && file < MOST_FILES && is_unsynced[file] && getenv("KILL"))
		keep_open(file);
	closed = NEXT(close)(file);
	if (fate == FAILS) {
		errno = error;
		return -1;
	}
	return after(fate, closed);
}
