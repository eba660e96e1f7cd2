#include "resources.h"

#include <inttypes.h>
#include <stdio.h>
#include <sys/resource.h>

/* On Linux getrusage also counts what the program that started this one had; the system's file on the process doesn't. */
uint64_t resources_peak(void)
{
    FILE *file = fopen("/proc/self/status", "r");
    struct rusage usage;
    uint64_t peak = 0;
    char line[256];
    if (file != NULL) {
        while (peak == 0 && fgets(line, sizeof line, file) != NULL)
            if (sscanf(line, "VmHWM: %" SCNu64, &peak) != 1) peak = 0;
        fclose(file);
    }
    if (peak == 0 && getrusage(RUSAGE_SELF, &usage) == 0) peak = (uint64_t)usage.ru_maxrss;
    return peak;
}

void resources_limit(uint64_t mebibytes)
{
    struct rlimit limit;
    if (mebibytes == 0 || getrlimit(RLIMIT_DATA, &limit) != 0) return;
    limit.rlim_cur = (rlim_t)(mebibytes << 20);
    setrlimit(RLIMIT_DATA, &limit);
}

void resources_lift(void)
{
    struct rlimit limit;
    if (getrlimit(RLIMIT_DATA, &limit) != 0) return;
    limit.rlim_cur = limit.rlim_max;
    setrlimit(RLIMIT_DATA, &limit);
}
