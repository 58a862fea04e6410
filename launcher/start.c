/* What the program does before its `main`, for the command `record` alone: it has signals stop a recording.
   JLSREC_STOP in the environment is then the path of an empty file in memory, at which the program looks before each read
   of a film. The first INT, TERM or HUP writes a byte into it; if the program makes it longer, that is seen within a tenth
   of a second. Then each thread is interrupted every 10 ms, so that a read that waits fails by EINTR. After a signal and a
   tenth of a second signals do what they usually do: a second one ends the program. One that comes sooner is taken for the
   same stop, since `timeout`, shells and service managers send two at once. A signal that was ignored stays so. If any of
   this can't be had, no signal is taken. COLUMNS and LINES are set to the terminal's size at standard error, unless they
   are set. There are no headers: what is used of the C library and of Linux is declared here. */
enum { IGNORED = 1, MFD_CLOEXEC = 1, SIG_UNBLOCK = 1, CLOCK_MONOTONIC = 1, SEEK_END = 2, READ_OK = 4, AT_FDCWD = -100 };
enum { F_DUPFD_CLOEXEC = 1030, TIOCGWINSZ = 0x5413, FOLDER_TO_READ = 02200000, SEEK_SET = 0, TICKS = 10 };
enum { SIGHUP = 1, SIGINT = 2, SIGTERM = 15, SIGURG = 23, TICK = 60 };
enum { SYS_write = 1, SYS_close = 3, SYS_lseek = 8, SYS_rt_sigprocmask = 14, SYS_ioctl = 16, SYS_access = 21,
	SYS_getpid = 39, SYS_fcntl = 72, SYS_gettid = 186, SYS_getdents64 = 217, SYS_timer_create = 222, SYS_timer_settime = 223,
	SYS_tgkill = 234, SYS_openat = 257, SYS_memfd_create = 319 };

struct sigaction { void (*handler)(int); unsigned long mask[16]; int flags; void (*restorer)(void); };
struct sigevent { void *value; int signal, how, unused[12]; }; struct period { long interval[2], first[2]; };
struct dirent { unsigned long inode, place; unsigned short length; unsigned char kind; char name[]; };

long syscall(long, ...);
int sigaction(int, const struct sigaction *, struct sigaction *), *__errno_location(void);
int setenv(const char *, const char *, int), unsetenv(const char *), strcmp(const char *, const char *), atoi(const char *);
int snprintf(char *, unsigned long, const char *, ...);

static const struct period every_100_ms = { { 0, 100000000 }, { 0, 1 } }, every_10_ms = { { 0, 10000000 }, { 0, 1 } };
static const int stops[] = { SIGHUP, SIGINT, SIGTERM };
static int is_taken[3], is_stopped, is_signalled, ticks, file, tasks, timer;

/* The handlers call only what may be called in one, and leave errno as it was. */
static void stop(int signal)
{
	int error = *__errno_location();

	is_signalled |= signal != TICK;
	if (!is_stopped++) {
		syscall(SYS_write, file, "s", 1L);
		syscall(SYS_timer_settime, timer, 0, &every_10_ms, 0L);
	}
	*__errno_location() = error;
}

static void interrupt(int signal) { (void)signal; }

/* Once the program is to stop, interrupts each thread: its own, by being called. */
static void tick(int signal)
{
	_Alignas(struct dirent) char list[2048];
	int error = *__errno_location();
	long size, at, thread, process = syscall(SYS_getpid), own = syscall(SYS_gettid);

	if (!is_stopped && syscall(SYS_lseek, file, 0L, SEEK_END) > 0)
		stop(signal);
	syscall(SYS_lseek, tasks, 0L, SEEK_SET);
	while (is_stopped && (size = syscall(SYS_getdents64, tasks, list, sizeof list)) > 0)
		for (at = 0; at < size; at += ((struct dirent *)(list + at))->length) {
			thread = atoi(((struct dirent *)(list + at))->name);
			if (thread > 0 && thread != own)
				syscall(SYS_tgkill, process, thread, SIGURG);
		}
	if (is_signalled && ++ticks == TICKS)
		for (at = 0; at < 3; at++)
			if (is_taken[at])
				sigaction(stops[at], &(struct sigaction){ 0 }, 0);
	*__errno_location() = error;
}

__attribute__((constructor)) static void start(int count, char **words)
{
	struct sigaction was, action = { .mask = { -1UL } };
	struct sigevent event = { .signal = TICK };
	long made, unblocked = 1L << (SIGURG - 1) | 1L << (TICK - 1);
	unsigned short window[4];
	char text[64];

	unsetenv("JLSREC_STOP");
	if (count < 2 || strcmp(words[1], "record"))
		return;
	for (long at = syscall(SYS_ioctl, 2L, TIOCGWINSZ, window) ? 0 : 2; at-- > 0;)
		if (window[at] > 0 && snprintf(text, sizeof text, "%d", window[at]) > 0)
			setenv(at ? "COLUMNS" : "LINES", text, 0);
	/* They are open from the start, when there are descriptors left, above the standard streams: these may be closed. */
	file = syscall(SYS_fcntl, made = syscall(SYS_memfd_create, "stop", MFD_CLOEXEC), F_DUPFD_CLOEXEC, 3L);
	syscall(SYS_close, made);
	tasks = syscall(SYS_fcntl, made = syscall(SYS_openat, AT_FDCWD, "/proc/self/task", FOLDER_TO_READ, 0L), F_DUPFD_CLOEXEC, 3L);
	syscall(SYS_close, made);
	snprintf(text, sizeof text, "/proc/self/fd/%d", file);
	if (syscall(SYS_access, text, READ_OK) || syscall(SYS_timer_create, CLOCK_MONOTONIC, &event, &timer) ||
	    setenv("JLSREC_STOP", text, 1))
		return;
	syscall(SYS_rt_sigprocmask, SIG_UNBLOCK, &unblocked, 0L, sizeof unblocked);
	action.handler = interrupt;
	sigaction(SIGURG, &action, 0);
	action.handler = tick;
	if (sigaction(TICK, &action, 0) || syscall(SYS_timer_settime, timer, 0, &every_100_ms, 0L))
		return;
	action.handler = stop;
	for (int at = 0; at < 3; at++)
		if (sigaction(stops[at], 0, &was) == 0 && was.handler != (void (*)(int))IGNORED)
			is_taken[at] = sigaction(stops[at], &action, 0) == 0;
}
