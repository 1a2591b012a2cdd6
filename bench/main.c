// Prints the tables of the benchmarks. The status is 1 where the two sides disagree on some line.
#include "bench.h"

#include <stdio.h>
#include <string.h>

// Other work slows both sides, so the tables are told with the load that the machine had.
static void print_load(void) {
    char line[128];
    FILE *load = fopen("/proc/loadavg", "r");
    if (load && fgets(line, sizeof line, load)) {
        printf("load: %s", line);
    }
    if (load) {
        fclose(load);
    }
}

int main(int count, char **words) {
    int disagreements = 0;
    print_load();
    int all = count < 2;
    if (all || strcmp(words[1], "regions") == 0) {
        disagreements += bench_regions();
        puts("");
    }
    if (all || strcmp(words[1], "rows") == 0) {
        disagreements += bench_rows();
        puts("");
    }
    if (all || strcmp(words[1], "areas") == 0) {
        disagreements += bench_areas();
        puts("");
    }
    if (all || strcmp(words[1], "pictures") == 0) {
        bench_pictures();
        puts("");
    }
    if (all || strcmp(words[1], "drawing") == 0) {
        bench_drawing();
    }
    print_load();
    if (disagreements > 0) {
        fprintf(stderr, "%d lines disagree\n", disagreements);
        return 1;
    }
    return 0;
}
