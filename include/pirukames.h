/* The proved AVR disassembler as a static library (x86-64 Linux): `tools/library` proves and builds it and prints its path, which is
 * crates/pirukames/out/libpirukames.a.
 *
 * Each function takes bytes, and the caller's buffer for its output, as a pointer and a length. A length of 0 goes with any pointer. The
 * two must not overlap. `flag` is 0 for a target without 16-bit lds and sts, and anything else for one with them.
 *
 * The result is number * 2^32 + value: number 0 and the count of bytes written, or the number of one of the documents' refusals and its
 * value, 0 where it has none. A refusal writes nothing; bytes of the buffer after the count are kept.
 *
 *   1  no row for the target fits the first word      value: the word
 *   2  bytes are missing                              value: bytes needed, 2 or 4
 *   3  the buffer is too short                        value: bytes needed
 *   5  the image is longer than 8,388,608 bytes, or than 65,536 where it is written as HEX
 *   6  a line of offsets is not six upper-case hexadecimal digits, or a line of a trace not 72
 *                                                     value: of a trace, the line's number, from 1
 *   7  a HEX line has bad form                        value: the line's number, from 1
 *   8  its bytes do not add up to 0                   value: the line's number
 *   9  its type is neither 00 nor 01                  value: the line's number
 *  10  it begins before the end of the last one       value: the line's number
 *  11  it goes beyond 65,536 or the caller's image    value: the line's number
 *  12  there is no end line
 *  13  no image of at most 8,388,608 bytes has that listing
 *  14  the caller's image is too short               value: bytes needed
 *  20  a frame of a trace is not what the frame before it steps to
 *                                                     value: the frame's number, from 1
 *  21  a frame's offset is odd or outside the image   value: the frame's number
 *  22  the bytes at its offset do not decode          value: the frame's number
 *  23  its instruction is not one that is stepped     value: the frame's number
 *  24  it steps to an offset outside the image        value: the frame's number
 *  30  an entry or a call's target is odd or outside  value: the offset of the call's line, or the entry
 *  31  a line does not decode                         value: its offset
 *  32  a jump, branch, skip or indirect call          value: its offset
 *  33  an `out` to $3D or $3E                         value: its offset
 *  34  a pop below the level at entry                 value: its offset
 *  35  a return at another level than at entry        value: its offset
 *  36  a seventeenth call level                       value: the offset of the call's line
 *  37  the image ends before a return                 value: its length
 *  40  a map does not have 8,192 bytes
 *  41  an odd offset
 *  42  an offset past 131,071
 *  43  a bad list of ranges
 */
#ifndef PIRUKAMES_H
#define PIRUKAMES_H

#include <stddef.h>
#include <stdint.h>

#ifdef __cplusplus
extern "C" {
#endif

/* The text of the first instruction, without LF. Refusals 1, 2, 3. 21 bytes of room are always enough. */
uint64_t avr_text(const uint8_t *bytes, size_t bytes_length, uint8_t flag, uint8_t *out, size_t out_length);

/* The first instruction decoded and encoded again: its own 2 or 4 bytes. Refusals 1, 2, 3. */
uint64_t avr_recode(const uint8_t *bytes, size_t bytes_length, uint8_t flag, uint8_t *out, size_t out_length);

/* The listing of an image, each line ended by LF. Refusals 5, then 3. 18 bytes of room for each byte of the image are enough, and
 * make it list in one pass. */
uint64_t avr_list(const uint8_t *image, size_t image_length, uint8_t flag, uint8_t *out, size_t out_length);

/* Every string of bytes that prints as the line: for each its length in one byte, then its bytes; 0, 3, 5, 6 or 8 bytes in all.
 * Refusal 3. */
uint64_t avr_reverse(const uint8_t *line, size_t line_length, uint8_t flag, uint8_t *out, size_t out_length);

/* What the frame program prints for a line of hexadecimal digits, `bad frame` included. Refusal 3. 1,200 bytes of room are enough. */
uint64_t avr_frame(const uint8_t *line, size_t line_length, uint8_t *out, size_t out_length);

/* The image that a file of Intel HEX gives, types 00 and 01: the count is one past the last byte given, gaps read FF, and bytes of
 * the caller's image after it are kept. Refusals 7 to 12: the first faulty line decides, on one line the lowest number, and 12 only
 * where no line is faulty. A line's number is at most 65,538. */
uint64_t avr_read_hex(const uint8_t *text, size_t text_length, uint8_t *image, size_t image_length);

/* The text of an image in Intel HEX: lines of 16 bytes, addresses from 0, each line ended by LF, and the end line. Refusals 5, above
 * 65,536 bytes, then 3. For n bytes the room is 12 * ((n + 15) / 16) + 2 * n + 12. avr_read_hex gives the same image again. */
uint64_t avr_write_hex(const uint8_t *image, size_t image_length, uint8_t *out, size_t out_length);

/* Replays a trace of the car board (flag 0) on its image: the number of frames, where each is what the frame before it steps to. A line
 * is a frame: its offset in 3 bytes, high byte first, r0 to r31, SREG; 72 digits. Lines end in LF; a last one without it counts if not
 * empty. The last frame is not stepped. Refusals 6, before the frame above the line is stepped, and 20 to 24: the first line decides.
 * Stepped are nop ldi mov add adc sub sbc cp cpc subi sbci cpi and andi or ori eor inc dec rjmp and the conditional branches. A trace
 * of less than 2^32 lines at a time: a larger number would read as a refusal. */
uint64_t avr_replay(const uint8_t *image, size_t image_length, const uint8_t *trace, size_t trace_length);

/* The image that a listing is of: what avr_list writes for it, then a line `end`, a blank and the number of its bytes, each line ended by
 * LF. No two images have one such text. Refusals 13, then 14. */
uint64_t avr_read_listing(const uint8_t *text, size_t text_length, uint8_t flag, uint8_t *image, size_t image_length);

/* ---- Coverage maps: 8,192 bytes, program word w in bit w mod 8 of byte w div 8. A refused call changes no bit; refusal 40 comes first. */

/* Visits the word of a line, 6 digits without LF: its offset in 3 bytes, high byte first. 0. Refusals 40, 6, 41, 42. */
uint64_t avr_visit(const uint8_t *line, size_t line_length, uint8_t *map, size_t map_length);

/* Visits each line of a text as avr_visit does and drops those that it refuses: how many were dropped. Lines end in LF; a last one without
 * it counts if not empty. Refusal 40. A text of less than 2^32 bytes at a time: a larger count would read as a refusal. */
uint64_t avr_visit_all(const uint8_t *text, size_t text_length, uint8_t *map, size_t map_length);

/* How many words are visited. Refusal 40. */
uint64_t avr_visited(const uint8_t *map, size_t map_length);

/* Adds the words of another map. 0. Refusal 40. */
uint64_t avr_join_maps(const uint8_t *other, size_t other_length, uint8_t *map, size_t map_length);

/* The map as rising ranges that don't touch, 4 bytes each: first word, last word, low byte first. Refusals 40, 3. 131,072 bytes of room
 * are always enough, and make it write in one pass. */
uint64_t avr_write_ranges(const uint8_t *map, size_t map_length, uint8_t *out, size_t out_length);

/* Makes the map the words of such ranges and no others: how many ranges. Refusals 40, 43. */
uint64_t avr_read_ranges(const uint8_t *ranges, size_t ranges_length, uint8_t *map, size_t map_length);

/* The map as a picture in the portable bitmap format (P4), 256 by 256, a word a pixel, word 0 top left, visited words black: 8,203
 * bytes. Refusals 40, 3. */
uint64_t avr_write_picture(const uint8_t *map, size_t map_length, uint8_t *out, size_t out_length);

/* ---- A routine's stack */

/* The most stack bytes that the straight routine at an entry uses, above the level at its entry: pushes, and for each call 2 bytes and what
 * the called routine uses, at most sixteen calls deep. Refusals 5, and 30 to 37: the first in the order of the walk, a called routine before
 * the lines after its call, and on one line the lowest. */
uint64_t avr_stack(const uint8_t *image, size_t image_length, uint8_t flag, uint32_t entry);

#ifdef __cplusplus
}
#endif

#endif
