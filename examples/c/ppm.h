/* A picture as a PPM file, for the examples: DIRECTORY/NAME-NUMBER.ppm, of a byte for each pixel, its pen, row by row. */
#include <stdint.h>
#include <stdio.h>
#include <stdlib.h>

static void write_ppm(const char *directory, const char *name, int number, size_t width, size_t height, const uint8_t *pens,
                      const char (*colours)[4])
{
    char path[512];
    FILE *file;
    snprintf(path, sizeof path, "%s/%s-%02d.ppm", directory, name, number);
    file = fopen(path, "wb");
    if (!file) {
        perror(path);
        exit(1);
    }
    fprintf(file, "P6\n%u %u\n255\n", (unsigned)width, (unsigned)height);
    for (size_t place = 0; place < width * height; place++)
        fwrite(colours[pens[place]], 1, 3, file);
    fclose(file);
}
