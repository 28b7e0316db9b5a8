// The time of day as the file AHEAD has it: so many seconds ahead of the machine's. Loaded before the C library, for one program alone.
#define _GNU_SOURCE
#include <fcntl.h>
#include <stdlib.h>
#include <sys/syscall.h>
#include <time.h>
#include <unistd.h>

int clock_gettime(clockid_t clock, struct timespec *time) {
    int status = (int)syscall(SYS_clock_gettime, clock, time);
    int file = status == 0 && clock == CLOCK_REALTIME ? open(getenv("AHEAD"), O_RDONLY) : -1;
    if (file >= 0) {
        char text[32] = "";
        if (read(file, text, sizeof text - 1) > 0)
            time->tv_sec += atoll(text);
        close(file);
    }
    return status;
}
