/* The calls of libmassey.a (tools/build massey). A call answers a length where
 * it is served, and minus the refusal's number where it is not; a refused call
 * leaves the buffer as it was. Every input and every length is answered.
 *
 * What is left to the caller: a pointer and the number after it are one slice of
 * bytes, which must be there to read, and of out to write too; an empty slice's
 * pointer may be null. No other thread writes to the bytes of the input or
 * touches those of out during the call. The input and out may overlap: the
 * answer and the bytes of out are those of separate buffers. A call keeps
 * nothing, allocates nothing, and needs MASSEY_STACK bytes of stack. Words and
 * other numbers in bytes are high byte first. docs/FORMATS.md has what is read
 * and written byte by byte, with offsets and examples. */
#ifndef MASSEY_H
#define MASSEY_H

#include <stddef.h>
#include <stdint.h>

/* The version of these calls. It rises where a call, a record or a number
 * changes. No call answers it, so it speaks for this header alone. Version 2 has
 * the word behind the disassembly of 12,015 words (massey_disassemble); in
 * version 3 a register that an instruction clears is open; version 4 has
 * massey_assemble, and those 12,015 words as .word in a listing; version 5 has
 * one record more at the end of a report (MASSEY_RECORD_HIDDEN), so that its
 * buffer and its length have three bytes more; in version 6 a mark is a byte of
 * owners, the input of massey_report ends in the reader's clearance, and a
 * report's head is another record, of one byte more. */
#define MASSEY_VERSION 6

/* The stack that is enough for any of the calls. Measured, less what an empty
 * thread takes: massey_report 80,120 bytes, massey_assemble 8,808 and
 * massey_listing 4,472. */
#define MASSEY_STACK 98304

/* ---- sizes */

/* The machine: words of memory, one for each address, and registers. */
#define MASSEY_MEMORY_WORDS 256
#define MASSEY_REGISTERS 16

/* The field of a text: the least buffer of massey_disassemble. A text may fill
 * it, and then has no zero behind it. */
#define MASSEY_TEXT 32

/* A listing: the longest image that is served, in bytes, the bytes of a line,
 * and the longest listing, that of 256 words. A buffer of that length is never
 * too short. */
#define MASSEY_LISTING_INPUT 512
#define MASSEY_LISTING_LINE 45
#define MASSEY_LISTING_LENGTH 11709

/* Assembling: the bytes of the longest image, that of 256 words. A buffer of that
 * length is never too short. A text may have any length. A label is L and so many
 * letters or digits at most. */
#define MASSEY_IMAGE_LENGTH 512
#define MASSEY_LABEL 6

/* A guarded run: the most breakpoints, and the largest budget. It has an owner
 * byte for each word of memory, whatever the image's length. */
#define MASSEY_BREAKPOINTS 256
#define MASSEY_BUDGET 1000000

/* A report: the longest input that is served, the least buffer, which is also
 * the longest report, and the most trace records in one. */
#define MASSEY_REPORT_INPUT 1037
#define MASSEY_REPORT_LENGTH 33934
#define MASSEY_TRACE 512

/* ---- refusals: a refused call answers minus one of these, and where several
 * hold, the lowest, but for massey_assemble, where the text's refusals go before
 * 5 and its first faulty line decides. massey_disassemble can be refused 5,
 * massey_listing 1, 5 and 6, massey_assemble 5, 11, 12 and 13, massey_report 1
 * and 3 to 6. */
enum massey_refusal {
    MASSEY_REFUSED_IMAGE = 1,       /* an image over 256 words */
    MASSEY_REFUSED_MARKS = 2,       /* owner bytes that are not 256; no call
                                       here is handed them by themselves */
    MASSEY_REFUSED_BREAKPOINTS = 3, /* over 256 breakpoints */
    MASSEY_REFUSED_BUDGET = 4,      /* a budget over 1,000,000 */
    MASSEY_REFUSED_BUFFER = 5,      /* an output buffer that is too short */
    MASSEY_REFUSED_INPUT = 6,       /* an input shorter or longer than its
                                       counts say, or an odd byte (listing) */
    MASSEY_REFUSED_GRAMMAR = 11,    /* a line that breaks the grammar */
    MASSEY_REFUSED_LABEL = 12,      /* a label that stands on two lines, or is
                                       used and stands on none */
    MASSEY_REFUSED_WORDS = 13       /* a line with the 257th word */
};

/* ---- owners: a value's mark is a byte of eight owners, one bit each, and every
 * byte is lawful. There is one for each address in the input, and one in each
 * record of kind 02, 05, 06 and 08, whole, whether the value shows or not. What
 * comes of two values has the owners of both; a register that XOR with y = z or a
 * shift of 16 or more clears has none, as it is 0 for every input. The reader's
 * clearance is such a byte too. A value with an owner that the clearance lacks is
 * hidden from that reader: it is written as zeros, and is neither run nor tested
 * by a jump. */
#define MASSEY_OWNERS 8
#define MASSEY_OWNER(i) (1 << (i)) /* i from 0 to 7 */
#define MASSEY_HIDDEN(clearance, owners) (((owners) & ~(clearance) & 0xFF) != 0)

/* ---- records of a report: a kind byte, and a body whose length goes by the
 * kind. The head stands first, and behind it the others in the order of their
 * kinds. docs/FORMATS.md, 'The report', has their offsets. */
enum massey_record {
    MASSEY_RECORD_HEAD = 0x09,       /* image length 2, budget 8, breakpoint
                                        count 2, clearance 1 */
    MASSEY_RECORD_START = 0x02,      /* address 1, owners 1, value 2, disassembly
                                        32; one for each word of memory */
    MASSEY_RECORD_BREAKPOINT = 0x03, /* address 1; in the given order */
    MASSEY_RECORD_TRACE = 0x04,      /* number 8, address 1, phase 1, text 32;
                                        the oldest first */
    MASSEY_RECORD_REGISTER = 0x05,   /* index 1, owners 1, value 2; one for each
                                        register */
    MASSEY_RECORD_WORD = 0x06,       /* address 1, owners 1, value 2; one for each
                                        word of memory, as the run left it */
    MASSEY_RECORD_TOUCHED = 0x07,    /* address 1; in order of first writing */
    MASSEY_RECORD_END = 0x08,        /* stop 1, PC 1, IR 2, MAR 1, MDR's owners
                                        1, MDR 2, instructions 8, micro
                                        operations 8, bus reads 8, bus writes 8,
                                        fault kind 1, its word 2, its address
                                        1 */
    MASSEY_RECORD_HIDDEN = 0x0A      /* how many words of memory are hidden from
                                        the reader as the run left them 2 */
};

/* The length of a whole record of each kind, its kind byte included. */
#define MASSEY_RECORD_HEAD_LENGTH 14
#define MASSEY_RECORD_START_LENGTH 37
#define MASSEY_RECORD_BREAKPOINT_LENGTH 2
#define MASSEY_RECORD_TRACE_LENGTH 43
#define MASSEY_RECORD_REGISTER_LENGTH 5
#define MASSEY_RECORD_WORD_LENGTH 5
#define MASSEY_RECORD_TOUCHED_LENGTH 2
#define MASSEY_RECORD_END_LENGTH 45
#define MASSEY_RECORD_HIDDEN_LENGTH 3

/* The phase of a trace record. 1 and 3, decode and halt, stand in none. */
enum massey_phase {
    MASSEY_PHASE_FETCH = 0,
    MASSEY_PHASE_EXECUTE = 2
};

/* Why a guarded run stopped: the end record's first number. */
enum massey_stop {
    MASSEY_STOP_HALTED = 0,
    MASSEY_STOP_BREAKPOINT = 1,
    MASSEY_STOP_FAULT = 2,       /* a word without an opcode */
    MASSEY_STOP_BUDGET = 3,
    MASSEY_STOP_HIDDEN_WORD = 4, /* the word at PC is hidden */
    MASSEY_STOP_HIDDEN_JUMP = 5  /* a jump would test a hidden register */
};

/* The end record's fault. The budget's is that of stop 3, with IR as its word
 * and PC as its address. */
enum massey_fault {
    MASSEY_FAULT_NONE = 0, /* word and address are 0 */
    MASSEY_FAULT_UNKNOWN = 1,
    MASSEY_FAULT_BUDGET = 2
};

#ifdef __cplusplus
extern "C" {
#endif

/* Writes the disassembly of word to the first 32 bytes of out, zeros behind the
 * text, keeps the bytes past them, and answers the text's length; -5 where out
 * has under 32 bytes. Where the word has a digit that its instruction does not
 * use and that is not 0, the text ends in " ; " and the word, as
 * "LOAD R1, R2 ; 2F12": two words have equal texts only where they are equal.
 * Kind 02 has the same texts; a listing has .word for such a word. */
int64_t massey_disassemble(uint16_t word, uint8_t *out, size_t out_len);

/* Writes the listing of the image's words to the start of out, keeps the bytes
 * past it, and answers its length, at most 11,709; -1 over 256 whole words, else
 * -5 where out is shorter than the listing, else -6 where a byte is left over. */
int64_t massey_listing(const uint8_t *image, size_t image_len, uint8_t *out,
                       size_t out_len);

/* Assembles a text, as an edited listing is, and writes the words of its image to
 * the start of out, 2 bytes each, keeps the bytes past them, and answers their
 * length, at most 512; 0 for a text without instructions. The first faulty line
 * decides: -11 where it breaks the grammar, else -13 where it has the 257th word,
 * and what stands behind it is not looked at. Where no line is faulty: -12 for a
 * label on two lines, or one that is used and stands on none; else -5 where out
 * is shorter than the image. What massey_listing writes is assembled to the very
 * words that were listed. docs/FORMATS.md, 'The assembler', has the grammar. */
int64_t massey_assemble(const uint8_t *text, size_t text_len, uint8_t *out,
                        size_t out_len);

/* Makes a guarded run and writes its report to the start of out, keeps the bytes
 * past it, and answers its length, at most 33,934. The input is that of the
 * program massey_report: image length 2 bytes, the words 2 each, 256 owner bytes
 * 1 each, budget 8, breakpoint count 2, the breakpoints 1 each, clearance 1.
 * Refused is -1 an image length over 256, else -3 a breakpoint count over 256,
 * else -4 a budget over 1,000,000, each of these where the number is there; else
 * -5 where out has under 33,934 bytes, else -6 where the input is shorter or
 * longer than its counts say. */
int64_t massey_report(const uint8_t *input, size_t input_len, uint8_t *out,
                      size_t out_len);

#ifdef __cplusplus
}
#endif

#endif
