/* Makes each sync of a program longer by SLOWER microseconds, as that of another disk is; bench/serving.py builds and preloads it. With
   SLOWER_DATA=1 each fsync is an fdatasync. */
#define _GNU_SOURCE
#include <stdlib.h>
#include <sys/prctl.h>
#include <sys/syscall.h>
#include <time.h>
#include <unistd.h>

static long micros;
static int only_data;

__attribute__((constructor)) static void begins(void) {
    const char *said = getenv("SLOWER");
    micros = said ? atol(said) : 0;
    only_data = getenv("SLOWER_DATA") != NULL;
    /* else a wait is fifty microseconds longer than was asked */
    prctl(PR_SET_TIMERSLACK, 1);
}

static int synced(long call, int file) {
    int answer = (int)syscall(call, file);
    if (micros > 0) {
        struct timespec wait = {micros / 1000000, micros % 1000000 * 1000};
        nanosleep(&wait, NULL);
    }
    return answer;
}

int fdatasync(int file) { return synced(SYS_fdatasync, file); }

int fsync(int file) { return synced(only_data ? SYS_fdatasync : SYS_fsync, file); }
