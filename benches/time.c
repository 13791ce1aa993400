/* The time of one admission of a table file, from its bytes to the listing. */
#define _POSIX_C_SOURCE 199309L
#include "pulgarv.h"
#include <stdio.h>
#include <time.h>

static double seconds(void) {
    struct timespec now;
    clock_gettime(CLOCK_MONOTONIC, &now);
    return (double)now.tv_sec + (double)now.tv_nsec * 1e-9;
}

int main(int argc, char **argv) {
    static uint8_t table[1024], place[8192];
    FILE *file = argc == 2 ? fopen(argv[1], "rb") : NULL;
    if (file == NULL) {
        fprintf(stderr, "usage: time FILE\n");
        return 2;
    }
    size_t length = fread(table, 1, sizeof table, file);
    fclose(file);
    long runs = 0;
    double start = seconds(), end = start;
    /* a table that is admitted fast is admitted often, so that the clock can tell */
    while (end - start < 0.2) {
        if (pulgarv_admit(table, length, place, sizeof place) < 0) {
            return 1;
        }
        runs += 1;
        end = seconds();
    }
    printf("%.3f ms\n", (end - start) * 1e3 / (double)runs);
    return 0;
}
