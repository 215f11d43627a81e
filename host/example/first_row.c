/* From a file to a picture: opens an LSM file, says what it holds, and prints the first row of its first picture.
 *
 *     tools/staticlib
 *     gcc -std=c11 -Wall -Wextra -Iinclude -o target/first_row host/example/first_row.c target/staticlib/liblsm_c.a
 *     target/first_row files/g.lsm
 *
 * include/lsm.h says what each function takes and gives. All memory is the caller's: a length that isn't known yet is asked for by a
 * call with too little room, which is refused with 7 and the length, and writes nothing but `answer`.
 */
#include <stdio.h>
#include <stdlib.h>
#include "lsm.h"

/* Room for n elements of a size, never null: the reader takes no null pointer, also where a length is 0. */
static void *room(size_t n, size_t size)
{
    void *p = calloc(n + 1, size);
    if (!p) {
        fputs("no memory\n", stderr);
        exit(2);
    }
    return p;
}

/* A refusal in the words of the lister: its number and its values. */
static int refused(const size_t *answer)
{
    static const int values[8] = {0, 0, 0, 0, 2, 2, 4, 1};
    printf("refused %zu", answer[0]);
    for (int i = 1; i <= values[answer[0]]; i++)
        printf(" %zu", answer[i]);
    putchar('\n');
    return 1;
}

static uint8_t *read_file(const char *path, size_t *len)
{
    FILE *f = fopen(path, "rb");
    if (!f || fseek(f, 0, SEEK_END) != 0) {
        perror(path);
        exit(2);
    }
    long n = ftell(f);
    rewind(f);
    uint8_t *bytes = (uint8_t *)room(n < 0 ? 0 : (size_t)n, 1);
    *len = n < 0 ? 0 : fread(bytes, 1, (size_t)n, f);
    fclose(f);
    return bytes;
}

/* A sample of a kind: one, two or four bytes, little-endian whatever the file's order. */
static void print_sample(const uint8_t *s, size_t kind)
{
    union {
        uint32_t bits;
        float value;
    } f32;
    switch (kind) {
    case 0: printf(" %u", (unsigned)s[0]); break;
    case 1: printf(" %u", (unsigned)(s[0] | s[1] << 8)); break;
    case 2: printf(" %d", (int)(int16_t)(s[0] | s[1] << 8)); break;
    default:
        f32.bits = s[0] | (uint32_t)s[1] << 8 | (uint32_t)s[2] << 16 | (uint32_t)s[3] << 24;
        printf(" %g", f32.value);
    }
}

int main(int argc, char **argv)
{
    static const size_t sample_size[4] = {1, 2, 2, 4};
    if (argc != 2) {
        fputs("usage: first_row FILE\n", stderr);
        return 2;
    }
    size_t len;
    uint8_t *file = read_file(argv[1], &len);

    /* Open with no room: 7 says how many words the strip table takes. Anything else is the file's own refusal. */
    size_t answer[LSM_OPEN_WORDS], nothing = 0;
    if (lsm_open(file, len, &nothing, 0, answer) != 7)
        return refused(answer);
    size_t words = answer[1];
    size_t *table = (size_t *)room(words, sizeof *table);
    if (lsm_open(file, len, table, words, answer) != 0)
        return refused(answer);

    /* The description's words, which the other calls take. */
    const size_t *description = answer + 3;
    size_t kind = description[1], width = description[6];
    printf("dims %zu %zu %zu %zu %zu\n", description[2], description[3], description[4], description[5], width);
    printf("kind %zu\n", kind);

    /* Channel 0. 3072 bytes hold any name. Bytes that would steer a terminal are left out. */
    size_t channel[LSM_CHANNEL_WORDS];
    uint8_t name[3072];
    if (lsm_channel(file, len, description, 0, name, sizeof name, channel) != 0)
        return refused(channel);
    if (channel[1])
        printf("colour %02zx%02zx%02zx\n", channel[2], channel[3], channel[4]);
    else
        puts("colour -");
    fputs(channel[5] ? "name =" : "name -", stdout);
    for (size_t i = 0; i < channel[6]; i++)
        if (name[i] >= 32 && name[i] != 127)
            putchar(name[i]);
    putchar('\n');

    /* The rectangle of row 0: scene, t, c and z are 0; column 0, row 0, the whole width, one row. Again the length is asked for first. */
    size_t picture[LSM_PICTURE_WORDS];
    uint8_t none = 0;
    if (lsm_region(file, len, description, table, words, 0, 0, 0, 0, 0, 0, width, 1, &none, 0, picture) != 7)
        return refused(picture);
    size_t bytes = picture[1];
    uint8_t *samples = (uint8_t *)room(bytes, 1);
    if (lsm_region(file, len, description, table, words, 0, 0, 0, 0, 0, 0, width, 1, samples, bytes, picture) != 0)
        return refused(picture);
    fputs("row 0:", stdout);
    for (size_t i = 0; i < width && i < 8; i++)
        print_sample(samples + i * sample_size[kind], kind);
    putchar('\n');
    free(samples);
    free(table);
    free(file);
    return 0;
}
