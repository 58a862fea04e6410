/* A made-up program of a release, for the processors that LEVEL names. Says its version; by other words it leaves in the
 * file that the variable TOLD names its level, its words and what its standard streams are, and in a second line which
 * process it is; and ends with status 7. */
#include <fcntl.h>
#include <stdio.h>
#include <stdlib.h>
#include <string.h>
#include <unistd.h>

int main(int argc, char **argv) {
    char at[3][4096], link[32];
    for (int i = 0; i < 3; i++) {
        snprintf(link, sizeof link, "/proc/self/fd/%d", i);
        ssize_t size = readlink(link, at[i], sizeof at[i] - 1);
        if (size < 0) strcpy(at[i], "closed");
        else at[i][size] = 0;
    }
    if (argc == 2 && !strcmp(argv[1], "--version")) return puts("jlsrec 0.1.0") < 0 || fflush(stdout);
    /* From 3 on, since one of the first three may be closed. */
    int kept = getenv("TOLD") ? open(getenv("TOLD"), O_WRONLY | O_CREAT | O_TRUNC, 0666) : -1;
    kept = kept < 0 ? kept : fcntl(kept, F_DUPFD, 3);
    FILE *told = kept < 0 ? NULL : fdopen(kept, "w");
    if (!told) return 9;
    fputs(LEVEL, told);
    for (int i = 1; i < argc; i++) fprintf(told, " <%s>", argv[i]);
    for (int i = 0; i < 3; i++) fprintf(told, " %s", at[i]);
    fprintf(told, "\n%d\n", getpid());
    fclose(told);
    return 7;
}
