/* RIPTIDE-II panel programs: reading and writing words, counting a map's sets, foretelling, admission, checking a table
 * that came along, reset, run and listing.
 *
 * Link target/staticlib/libriptide.a, which `tools/library` writes. Every call takes any bytes of any length,
 * ends, and gives one number. A pointer is followed by the count of bytes behind it; with a count of 0 it must still
 * not be null. Bytes lent with `const` are never written, the others only as said. A refusal changes no byte.
 * docs/FORMATS.md has every byte of image, map, state, recording, trace, table and page.
 *
 * Threads: calls keep nothing between them, so any number of threads may call at once with buffers of their own.
 *
 * Overlap: the proof assumes that lent buffers do not overlap, and where they do nothing is promised. A table over the
 * map, for example, can turn a refusal round, since the findings are asked of the map after the table has been filled.
 *
 * Time is bounded by sweeps and not by the clock: in an admission at most 108 sweeps for each word of the image change
 * the table and one more does not, and a sweep goes through the cells that are due, at most 9 for each word. riptide_foretell
 * tells the bound beforehand, riptide_admit how many it was; it takes 40 KiB of stack. A check is one pass over the cells. A run
 * takes at most one step for each pair. docs/RATES.md has seconds.
 */
#ifndef RIPTIDE_H
#define RIPTIDE_H

#include <stddef.h>
#include <stdint.h>

#ifdef __cplusplus
extern "C" {
#endif

/* 10,000 times the first part, 100 times the second, and the third. */
#define RIPTIDE_VERSION 30100
#define RIPTIDE_VERSION_TEXT "3.1.0"

/* Lengths. An image has an even count of bytes, 2 at least. */
#define RIPTIDE_WORD_BYTES 2
#define RIPTIDE_MOST_WORDS 8192
#define RIPTIDE_MOST_IMAGE_BYTES 16384
#define RIPTIDE_MAP_BYTES 128
#define RIPTIDE_SET_BYTES 32 /* each of a map's four sets */
#define RIPTIDE_STATE_BYTES 36
#define RIPTIDE_PAIR_BYTES 2 /* a recording, for each step */
#define RIPTIDE_TRACE_RECORD_BYTES 8 /* a trace, for each step */
#define RIPTIDE_TABLE_RECORD_BYTES 16 /* a table of facts, for each cell */
#define RIPTIDE_TABLE_WORD_BYTES 144 /* and for each word: one record for each depth, 0 to 8 */
#define RIPTIDE_TABLE_BYTES(image_length) ((size_t)(image_length) / RIPTIDE_WORD_BYTES * RIPTIDE_TABLE_WORD_BYTES)
#define RIPTIDE_WORD_SWEEPS 108 /* at most so many sweeps change a table, for each word */
#define RIPTIDE_LINE_BYTES 32 /* a listing page, for each word: its line with the line feed */
#define RIPTIDE_PAGE_BYTES(image_length) ((size_t)(image_length) / RIPTIDE_WORD_BYTES * RIPTIDE_LINE_BYTES)

/* The number in the low byte of every answer: 0, a refusal, a stop or finding, or what a check says of a table's cell. */
#define RIPTIDE_NUMBER(n) ((unsigned)((n) & 0xff))

/* Refusals, asked at the door. */
#define RIPTIDE_REFUSED_IMAGE 11
#define RIPTIDE_REFUSED_MAP 12
#define RIPTIDE_REFUSED_TABLE 13
#define RIPTIDE_REFUSED_STATE 14
#define RIPTIDE_REFUSED_RECORDING 15
#define RIPTIDE_REFUSED_TRACE 16
#define RIPTIDE_REFUSED_INPUT 18 /* by the bench alone */
#define RIPTIDE_REFUSED_PAGE 41

/* Stops of a run and findings of admission; the last two are findings alone. */
#define RIPTIDE_OUTSIDE_CODE 21
#define RIPTIDE_INVALID_WORD 22
#define RIPTIDE_NOT_READABLE 23
#define RIPTIDE_NOT_WRITABLE 24
#define RIPTIDE_NOT_LISTED 25
#define RIPTIDE_STACK_FULL 26
#define RIPTIDE_STACK_EMPTY 27
#define RIPTIDE_NOT_KNOWN 28
#define RIPTIDE_XEC_OF_XEC 29

/* What a check alone says of a cell. */
#define RIPTIDE_RECORD_LAYOUT 42
#define RIPTIDE_FACTS_NOT_HELD 43

/* Whether a number is a refusal: then there is no depth, address or count. 42 and 43 are none: they name a cell. */
static inline int riptide_is_refusal(unsigned number)
{
    return (number >= RIPTIDE_REFUSED_IMAGE && number <= RIPTIDE_REFUSED_INPUT) || number == RIPTIDE_REFUSED_PAGE;
}

/* What a number says, in a few words. */
static inline const char *riptide_text(unsigned number)
{
    switch (number) {
    case 0: return "no refusal, stop or finding";
    case RIPTIDE_REFUSED_IMAGE: return "the image is not 2 to 16,384 bytes, or of odd length";
    case RIPTIDE_REFUSED_MAP: return "the map is not 128 bytes";
    case RIPTIDE_REFUSED_TABLE: return "the table is not 144 bytes for each word";
    case RIPTIDE_REFUSED_STATE: return "the state is not 36 bytes or not well formed";
    case RIPTIDE_REFUSED_RECORDING: return "the recording is of odd length";
    case RIPTIDE_REFUSED_TRACE: return "the trace is not four times as long as the recording";
    case RIPTIDE_REFUSED_INPUT: return "the bench's input is longer than 928 bytes";
    case RIPTIDE_OUTSIDE_CODE: return "goes on, or would return, outside the code";
    case RIPTIDE_INVALID_WORD: return "an invalid word";
    case RIPTIDE_NOT_READABLE: return "reads at an address that is not readable";
    case RIPTIDE_NOT_WRITABLE: return "writes data at an address that is not writable";
    case RIPTIDE_NOT_LISTED: return "chooses an address that is not listed";
    case RIPTIDE_STACK_FULL: return "a CALL with eight return addresses on the stack";
    case RIPTIDE_STACK_EMPTY: return "a RET with an empty stack";
    case RIPTIDE_NOT_KNOWN: return "an address or a CALL's page is not known";
    case RIPTIDE_XEC_OF_XEC: return "an XEC may execute an XEC";
    case RIPTIDE_REFUSED_PAGE: return "the page is not 32 bytes for each word";
    case RIPTIDE_RECORD_LAYOUT: return "the cell's record in the table has not the layout";
    case RIPTIDE_FACTS_NOT_HELD: return "the table does not hold what reset or the cell passes on";
    default: return "unknown number";
    }
}

/* Reads a word. 22 if it is invalid; else its opcode and fields, to be taken out by the four below. MOVE, ADD, AND, XOR
 * have source, rotation or length, destination; XEC, NZT and XMIT of a bank have bank, length, constant, of a register
 * register and constant; CALL is opcode 5 with 7 and its constant, RET opcode 5 with 15 and its low byte, any of the
 * 256, which no step looks at; JMP has its address. */
uint64_t riptide_read_word(uint16_t word);

#define RIPTIDE_OPCODE(n) ((unsigned)((n) >> 8 & 0xff))
#define RIPTIDE_FIELD_1(n) ((unsigned)((n) >> 16 & 0xffff))
#define RIPTIDE_FIELD_2(n) ((unsigned)((n) >> 32 & 0xffff))
#define RIPTIDE_FIELD_3(n) ((unsigned)((n) >> 48 & 0xffff))

/* Writes a word of an opcode and fields as riptide_read_word gives them, a field that the word does not have being 0. The
 * word times 256, or 22 where a field is wider than its place or outside the paper's lists. */
uint64_t riptide_write_word(size_t opcode, size_t field_1, size_t field_2, size_t field_3);

#define RIPTIDE_WORD(n) ((uint16_t)((n) >> 8))

/* Counts how many addresses each of a map's four sets has. 12 if the map is not 128 bytes. */
uint64_t riptide_count_sets(const uint8_t *map, size_t map_length);

#define RIPTIDE_LEFT_READABLE(n) ((unsigned)((n) >> 8 & 0xfff))
#define RIPTIDE_LEFT_WRITABLE(n) ((unsigned)((n) >> 20 & 0xfff))
#define RIPTIDE_RIGHT_READABLE(n) ((unsigned)((n) >> 32 & 0xfff))
#define RIPTIDE_RIGHT_WRITABLE(n) ((unsigned)((n) >> 44 & 0xfff))

/* Makes a state that of reset, all 36 bytes zero. 0, or 14 if the state is not 36 bytes. */
uint64_t riptide_reset(uint8_t *state, size_t state_length);

/* Tells of an image alone what its admission takes, whatever the map, without doing the work: a table of
 * RIPTIDE_TABLE_LENGTH bytes, and at most RIPTIDE_SWEEP_BOUND sweeps that change it. RIPTIDE_NUMBER is 0, or 11 image:
 * refused, and then the two are 0. */
uint64_t riptide_foretell(const uint8_t *image, size_t image_length);

#define RIPTIDE_TABLE_LENGTH(n) ((size_t)((n) >> 8 & 0xffffff))
#define RIPTIDE_SWEEP_BOUND(n) ((unsigned)((n) >> 32))

/* Reads a program before it runs, and fills the table of facts, whatever it held. RIPTIDE_NUMBER is 0: admitted, no cell
 * has a finding; 11 image, 12 map, 13 table: refused, nothing changed; 21-29: of all findings in the table the one of lowest
 * depth, and among those the one of lowest address, at RIPTIDE_DEPTH and RIPTIDE_ADDRESS. RIPTIDE_SWEEPS is how many sweeps
 * changed the table, 0 if refused; so an admitted program's number as a whole need not be 0. */
uint64_t riptide_admit(const uint8_t *image, size_t image_length, const uint8_t *map, size_t map_length, uint8_t *table,
                       size_t table_length);

#define RIPTIDE_DEPTH(n) ((unsigned)((n) >> 8 & 0xff))
#define RIPTIDE_ADDRESS(n) ((unsigned)((n) >> 16 & 0xffff))
#define RIPTIDE_SWEEPS(n) ((unsigned)((n) >> 32))

/* Checks a table that came along with an image and a map, whoever made it, and writes nothing: all three may lie in
 * read-only memory. 0: accepted. RIPTIDE_NUMBER is 11 image, 12 map, 13 table: refused; else the first that fails, at
 * RIPTIDE_DEPTH and RIPTIDE_ADDRESS: 42 a record has not the layout of docs/FORMATS.md, asked of all records first; 43 cell
 * (0, 0) is not reached or knows more than reset; then of the reached cells in table order 21-29 a finding, or 43 a next cell
 * is not reached or knows more than is passed on. The table that riptide_admit filled for an admitted program is accepted,
 * and one that knows less can be. An accepted program runs as an admitted one does, within the facts of the table that came
 * along. */
uint64_t riptide_check(const uint8_t *image, size_t image_length, const uint8_t *map, size_t map_length,
                       const uint8_t *table, size_t table_length);

/* Runs a program from a state over a recording, one word for each pair, until the machine stops. Writes the state
 * afterwards and a trace record for each step; later trace bytes stay. RIPTIDE_COUNT is the count of records and
 * RIPTIDE_NUMBER the stop number or 0; with count 0 the number can be a refusal: 11 image, 12 map, 14 state, 15 recording,
 * 16 trace, and then nothing changed. A program that is admitted, or accepted by riptide_check, takes every pair from reset
 * on. To an admitted one the recording's bytes of a bank in which the map has nothing readable make no difference. */
uint64_t riptide_run(const uint8_t *image, size_t image_length, const uint8_t *map, size_t map_length, uint8_t *state,
                     size_t state_length, const uint8_t *recording, size_t recording_length, uint8_t *trace,
                     size_t trace_length);

#define RIPTIDE_COUNT(n) ((n) >> 8)

/* In a trace record, of which `record` is the first byte: PC before the step, and where its word was fetched, which is
 * another address than PC only if an XEC was pending. */
#define RIPTIDE_TRACE_PC(record) ((record)[4] + 256u * (record)[5])
#define RIPTIDE_TRACE_FETCH(record) ((record)[6] + 256u * (record)[7])

/* Writes the listing of an image: for each word a line of 32 bytes with its address, the word, its mnemonic and its
 * operands. The page is ASCII, each line ended by a line feed, with no zero byte behind it. 0; or 11 image, 41 page: refused,
 * nothing changed. */
uint64_t riptide_list(const uint8_t *image, size_t image_length, uint8_t *page, size_t page_length);

#ifdef __cplusplus
}
#endif

#endif
