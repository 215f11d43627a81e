/* One channel out of three interleaved ones: this reader beside a plain C loop that gathers the same bytes, and beside memcpy of all that is
 * read, in one run.
 *
 *     tools/staticlib
 *     gcc -std=c11 -O2 -Iinclude -o target/interleaved host/bench/interleaved.c target/staticlib/liblsm_c.a
 *     target/interleaved 64
 *
 * The number is the MiB that a channel's picture has. Every kind of sample is asked for, in one strip and in a strip for each row, in both byte
 * orders; whole pictures, and rectangles of half their width. What the reader gives is compared with what the loop gathers. The times are the least
 * of seven, taken in turn; the ratios are the loop's time to the reader's, and memcpy's to the reader's.
 */
#define _POSIX_C_SOURCE 199309L
#include <stdint.h>
#include <stdio.h>
#include <stdlib.h>
#include <string.h>
#include <time.h>
#include "lsm.h"

enum { CHANNELS = 3, WIDTH = 8192, RUNS = 7 };

static double now(void)
{
    struct timespec t;
    clock_gettime(CLOCK_MONOTONIC, &t);
    return (double)t.tv_sec + 1e-9 * (double)t.tv_nsec;
}

static void *room(size_t n)
{
    void *p = malloc(n + 1);
    if (!p) {
        fputs("no memory\n", stderr);
        exit(2);
    }
    memset(p, 1, n + 1);
    return p;
}

/* The plain loops: n samples, each `step` bytes after the one before. They are calls of their own, as the reader is, and know no step. */
__attribute__((noinline)) static void gather1(const uint8_t *in, uint8_t *out, size_t n, size_t step)
{
    for (size_t i = 0; i < n; i++)
        out[i] = in[i * step];
}

__attribute__((noinline)) static void gather2(const uint8_t *in, uint8_t *out, size_t n, size_t step)
{
    for (size_t i = 0; i < n; i++)
        memcpy(out + 2 * i, in + i * step, 2);
}

__attribute__((noinline)) static void gather4(const uint8_t *in, uint8_t *out, size_t n, size_t step)
{
    for (size_t i = 0; i < n; i++)
        memcpy(out + 4 * i, in + i * step, 4);
}

static void gather(const uint8_t *in, uint8_t *out, size_t n, size_t size)
{
    if (size == 1)
        gather1(in, out, n, CHANNELS);
    else if (size == 2)
        gather2(in, out, n, 2 * CHANNELS);
    else
        gather4(in, out, n, 4 * CHANNELS);
}

/* Samples turned around, byte by byte: only to compare. */
static void turn(uint8_t *out, size_t n, size_t size)
{
    for (size_t i = 0; i < n; i++)
        for (size_t b = 0; b < size / 2; b++) {
            uint8_t t = out[i * size + b];
            out[i * size + b] = out[i * size + size - 1 - b];
            out[i * size + size - 1 - b] = t;
        }
}

static void least(double *best, double time)
{
    if (time < *best)
        *best = time;
}

/* One row of the table; 1 where the reader refuses or gives other samples. */
static int measure(size_t bytes, int kind, int big, int strip_each_row)
{
    static const char *names[4] = {"U8", "U16", "I16", "F32"};
    static const size_t sizes[4] = {1, 2, 2, 4};
    size_t size = sizes[kind], height = bytes / (WIDTH * size), samples = WIDTH * height, all = samples * size * CHANNELS;
    size_t strips = strip_each_row ? height : 1;
    uint8_t *file = room(all), *out = room(samples * size), *want = room(samples * size), *copy = room(all);
    size_t *table = room(2 * strips * sizeof *table);
    size_t d[LSM_DESCRIPTION_WORDS] = {0}, answer[LSM_PICTURE_WORDS];
    double plane = 1e9, loop = 1e9, move = 1e9, part = 1e9, part_loop = 1e9;
    int wrong = 0;
    for (size_t i = 0; i < all; i++)
        file[i] = (uint8_t)(i * 2654435761u >> 13);
    for (size_t i = 0; i < strips; i++) {
        table[2 * i] = i * (all / strips);
        table[2 * i + 1] = all / strips;
    }
    d[0] = (size_t)big;
    d[1] = (size_t)kind;
    d[2] = d[4] = d[7] = d[8] = d[17] = d[18] = 1;
    d[3] = CHANNELS;
    d[5] = height;
    d[6] = WIDTH;
    d[9] = strips;
    for (int run = 0; run < RUNS && !wrong; run++) {
        double t = now();
        wrong |= lsm_plane(file, all, d, table, 2 * strips, 0, 0, 1, 0, out, samples * size, answer) != 0;
        least(&plane, now() - t);
        t = now();
        gather(file + size, want, samples, size);
        least(&loop, now() - t);
        t = now();
        memcpy(copy, file, all);
        least(&move, now() - t);
        if (big)
            turn(want, samples, size);
        wrong |= memcmp(out, want, samples * size) != 0;
        t = now();
        wrong |= lsm_region(file, all, d, table, 2 * strips, 0, 0, 2, 0, WIDTH / 4, 0, WIDTH / 2, height, out, samples * size, answer) != 0;
        least(&part, now() - t);
        t = now();
        for (size_t y = 0; y < height; y++)
            gather(file + ((y * WIDTH + WIDTH / 4) * CHANNELS + 2) * size, want + y * (WIDTH / 2) * size, WIDTH / 2, size);
        least(&part_loop, now() - t);
        if (big)
            turn(want, samples / 2, size);
        wrong |= memcmp(out, want, samples / 2 * size) != 0;
    }
    if (wrong)
        printf("%s, %s: the reader's samples are not those of the loop\n", names[kind], big ? "MM" : "II");
    else
        printf("%s, %s, %zu strips | %.1f ms | %.2f | %.2f | %.1f ms | %.2f\n", names[kind], big ? "MM" : "II", strips, plane * 1e3, loop / plane,
               move / plane, part * 1e3, part_loop / part);
    free(file);
    free(out);
    free(want);
    free(copy);
    free(table);
    return wrong;
}

int main(int argc, char **argv)
{
    size_t bytes = (argc > 1 ? strtoul(argv[1], NULL, 10) : 1) << 20;
    int wrong = 0;
    puts("picture | plane | of the loop's speed | of memcpy's speed | rectangle | of the loop's speed");
    for (int big = 0; big < 2; big++)
        for (int kind = 0; kind < 4; kind++)
            for (int each = 0; each < 2; each++)
                if (kind != 2)
                    wrong |= measure(bytes, kind, big, each);
    return wrong;
}
