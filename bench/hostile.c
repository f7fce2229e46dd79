/* Says whether the bytes of a file are in normal form at `v`, and how many seconds that took, for `bench/hostile`. */
#include <stdbool.h>
#include <stdint.h>
#include <stdio.h>
#include <stdlib.h>
#include <time.h>

/* A slice is a pointer and a length, a type the bytes of its text. */
bool dconf_bench_normal(const uint8_t *of, size_t of_len, const uint8_t *bytes, size_t bytes_len, bool *found);

static double now(void) {
    struct timespec at;
    clock_gettime(CLOCK_PROCESS_CPUTIME_ID, &at);
    return at.tv_sec + at.tv_nsec / 1e9;
}

int main(int count, char **words) {
    static uint8_t bytes[1 << 20];
    FILE *file = count == 2 ? fopen(words[1], "rb") : NULL;
    if (!file)
        return 2;
    size_t len = fread(bytes, 1, sizeof bytes, file);
    fclose(file);
    bool found = false;
    double start = now();
    if (!dconf_bench_normal((const uint8_t *)"v", 1, bytes, len, &found))
        return 1;
    printf("%.4f %s\n", now() - start, found ? "normal" : "other");
    return 0;
}
