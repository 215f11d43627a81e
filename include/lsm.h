/* The LSM reader as C functions, for 64-bit machines.
 *
 * The reader takes the bytes of a whole file and memory that the caller lends. It keeps nothing: no memory is taken, none is held
 * after a call, and the same arguments give the same answer. All memory belongs to the caller. A function reads `file`,
 * `description` and a `const` table, and writes only what the caller lends for writing. Memory lent for writing must not overlap
 * anything else that is handed in.
 *
 * A slice goes as a pointer and a length in elements. The pointer is not null and is aligned for its elements, also where the length
 * is 0. A pointer to an array of fixed length has that many elements behind it.
 *
 * Every function returns 0 where it accepts, and otherwise the number of the refusal:
 *
 *   returned  answer[1], [2], ..           what it means
 *   1         -                            the container is malformed
 *   2         -                            the bytes can't be made into the pictures that they announce; or the words handed in are
 *                                          no description
 *   3         -                            a sort of file that this reader doesn't take
 *   4         requested, cap               a size above its limit
 *   5         scene, count                 no such scene; the file has count of them
 *   6         scene, t, c, z               a coordinate outside its scene; for a channel lookup scene, t and z are 0
 *   7         length needed                lent memory is too short and nothing else is in the way: words of the table, bytes of
 *                                          the name or of the samples; 2^64 - 1 stands for a length that passes 64 bits
 *   8         -                            BitsPerSample of a full page isn't one value, nor equal values, as many as there are channels
 *   9         -                            a value that is read of an entry (SBYTE, SSHORT or SLONG) is negative
 *
 * Every call overwrites the whole of `answer`. answer[0] is the returned number, and what the table above doesn't name is 0 after a
 * refusal. A refusal leaves all other lent memory as it was. Past the end of what an accepted call writes, lent memory stays as it was.
 */
#ifndef LSM_H
#define LSM_H

#include <stddef.h>
#include <stdint.h>

#ifdef __cplusplus
extern "C" {
#endif

/* The words of a description, which lsm_open gives and the other functions take. Later versions add words at the end only.
 *
 *   0        byte order: 0 little, 1 big
 *   1        kind of sample: 0 unsigned of 8 bits, 1 unsigned of 16 bits, 2 signed of 16 bits, 3 float of 32 bits
 *   2 to 6   time points, channels, depth, height, width
 *   7        scenes
 *   8        pages of a time point
 *   9        strips of a channel on a page; where word 18 is 1, of a page
 *   10       pixel size: 0 none, 1 stated
 *   11, 12   its X and Y in micrometres, as the bits of a 32-bit float
 *   13       Z step: 0 used, 1 none, 2 not used since it is a placeholder, 3 not used since it is too large
 *   14       the step in micrometres, as the bits of a 32-bit float
 *   15       channel block: 0 none, 1 there
 *   16       its place in the file
 *   17       time points of a scene, by which pages are counted
 *   18       0 where each strip has one channel, 1 where the channels are interleaved
 *
 * The picture at scene, t, c, z stands on page (scene x word 17 + t) x word 8 + z of the table, counted from 0. Word 2 is what t is held
 * to; lsm_open gives it and word 17 alike.
 *
 * Where word 18 is 0, a page of the table has word 9 strips of channel 0, then as many of channel 1, and so on. Where it is 1, a page has
 * word 9 strips, and all of them are every channel's: one after another they hold the page pixel by pixel, row by row, and of each pixel a
 * sample of channel 0, then one of channel 1, and so on. A strip may end anywhere, also inside a sample. lsm_open gives 1 only where there
 * are several channels.
 *
 * Words of what is absent are 0 in a description that lsm_open gives, and aren't looked at in one that is handed in: words 11 to 14
 * without a pixel size, word 14 without a Z step, word 16 without a channel block. A description may be kept, changed, and handed in
 * with any file. Words with an order, kind or choice outside its numbers (words 0, 1, 10, 13, 15 and 18), or with a float above 2^32 - 1
 * or a NaN's bits, are no description: the call refuses them with 2 before it looks at anything else.
 */
#define LSM_DESCRIPTION_WORDS 19

/* The words of an answer: of lsm_open, of lsm_channel, of lsm_plane and lsm_region. */
#define LSM_OPEN_WORDS (3 + LSM_DESCRIPTION_WORDS)
#define LSM_CHANNEL_WORDS 8
#define LSM_PICTURE_WORDS 5

/* Opens a file: checks it, describes it, and writes its strips into the table, page by page, strip by strip, offset then length.
 *
 * Accepted: answer[1] is how many directories were visited, answer[2] how many words of the table were written, and the words from
 * answer[3] on are the description's.
 */
size_t lsm_open(const uint8_t *file, size_t file_len, size_t *table, size_t table_len, size_t answer[LSM_OPEN_WORDS]);

/* The colour and name of a channel, counted from 0. The name's text, in UTF-8 and with no zero byte after it, is written to `name`;
 * 3072 bytes hold any name.
 *
 * Accepted: answer[1] is 1 where there is a colour, with red, green and blue in answer[2] to answer[4]; answer[5] is 1 where there is
 * a name, with its length in bytes in answer[6]; answer[7] is 0. What is absent is 0. A name of length 0 is a name.
 */
size_t lsm_channel(const uint8_t *file, size_t file_len, const size_t description[LSM_DESCRIPTION_WORDS], size_t channel,
                   uint8_t *name, size_t name_len, size_t answer[LSM_CHANNEL_WORDS]);

/* A whole picture of a channel, with the description and the table that lsm_open gave of the file. Its samples are written to `out`,
 * row by row, little-endian whatever the file's order. The strips that it is read from must have as many bytes as it has itself. Where
 * channels are interleaved, the page's strips must have as many as the pictures of all channels together, and `out` takes those of the one
 * channel that is asked for.
 *
 * Accepted: answer[1] is the height, answer[2] the width, answer[3] how many bytes were written, answer[4] is 0.
 */
size_t lsm_plane(const uint8_t *file, size_t file_len, const size_t description[LSM_DESCRIPTION_WORDS], const size_t *table,
                 size_t table_len, size_t scene, size_t t, size_t c, size_t z, uint8_t *out, size_t out_len,
                 size_t answer[LSM_PICTURE_WORDS]);

/* A rectangle of a picture: its left column x and top row y, w columns and h rows. The picture may be one that is too large for
 * lsm_plane, unless its channels are interleaved: a rectangle of such a picture is held to all that lsm_plane asks of the whole one, so one
 * above the limit gives none. The same is written and answered as by lsm_plane, with h and w as height and width; a rectangle of width or
 * height 0 is accepted, and nothing is written.
 */
size_t lsm_region(const uint8_t *file, size_t file_len, const size_t description[LSM_DESCRIPTION_WORDS], const size_t *table,
                  size_t table_len, size_t scene, size_t t, size_t c, size_t z, size_t x, size_t y, size_t w, size_t h,
                  uint8_t *out, size_t out_len, size_t answer[LSM_PICTURE_WORDS]);

#ifdef __cplusplus
}
#endif

#endif
