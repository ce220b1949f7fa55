/* Counts of points, for a program of tools/counted: eight bytes for each point, in the file that COUNTS names. Runs
   share it. */

#include <fcntl.h>
#include <stdint.h>
#include <stdlib.h>
#include <sys/mman.h>
#include <unistd.h>

static uint64_t nowhere[POINTS];
static uint64_t *counts = nowhere;

__attribute__((constructor)) static void open_counts(void)
{
    const char *name = getenv("COUNTS");
    int file = name ? open(name, O_RDWR | O_CREAT, 0666) : -1;
    if (file < 0)
        return;
    if (ftruncate(file, sizeof nowhere) == 0) {
        void *place = mmap(NULL, sizeof nowhere, PROT_READ | PROT_WRITE, MAP_SHARED, file, 0);
        if (place != MAP_FAILED)
            counts = place;
    }
    close(file);
}

/* A count may lose one where two runs add at once, but never all. */
void count_point(uint32_t point)
{
    counts[point]++;
}
