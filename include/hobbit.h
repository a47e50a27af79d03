/* The proved Hobbit machine, for C: libhobbit.a, made by `tools/build hobbit` (target/staticlib/libhobbit.a).
 *
 * Nothing is kept between calls: the caller lends the memory and two blocks of words, which hold the whole machine.
 *   registers  17 words: the thirteen registers in the order of Table 1-1 (CONFIG, FAULT, ID, ISP, MSP, PC, PSW, SHAD, SP,
 *              STB, TIMER1, TIMER2, VB), then what is due: trace, Timer1, Timer2, and whether interrupt input 0 was taken and
 *              no look has found another level since. Each of these four counts if it is 1; another word counts as 0 and
 *              stays until a step writes there
 *   cache      64 words: the sixteen quad-words of the stack cache
 * No call has a precondition but these sizes, and that what is lent is there: no pointer is null or unaligned, and blocks
 * of one call do not overlap. A call that refuses answers the refusal's number and changes no word and no byte:
 *   1  memory is not 1 to 4,096 pages of 4,096 bytes
 *   2  no such register, a reserved bit set, or MSP not in SP to SP + 256
 *   3  interrupt level above 7
 *   4  the next step would leave MSP outside SP to SP + 256 (a run's finished steps stay)
 *   5  no encoding of the named length carries the instruction, or the eight words name none
 *   6  no parcel, or fewer than the first one, or the one after a prefix, calls for
 *   8  bytes that reach past the end of memory
 *   9  a confined run without user level and virtual addressing
 */
#ifndef HOBBIT_H
#define HOBBIT_H

#include <stdbool.h>
#include <stddef.h>
#include <stdint.h>

/* The number of this interface; hobbit_interface answers the library's own, so that a caller can compare the two. It grows
 * with each change after which a caller may have to change. What changed since 1: word 2 of an instruction is its length,
 * prefix counted, for every kind; it was a dyadic's form, and 0 for the others. */
enum { HOBBIT_INTERFACE = 2 };

uint32_t hobbit_interface(void);

/* Steps done; stop 0 budget spent, 1 refused, 2 event due; and the code. Of a confined run, by its stop:
 *   0  0
 *   1  the refusal's number: 1, 2, 3, 4 or 9
 *   2  the event: 0x01 to 0x05 and 0x07 to 0x0B the exception, 0x10 to 0x16 interrupt level 0 to 6, 0x17 and 0x18 timers,
 *      0x20 KCALL, 0x21 unimplemented
 * and nothing else. 0x06, an unimplemented register, is not among them: at user level any register operand is 0x05. A run that
 * takes its events never stops with 2, and is never refused with 9; an exception that it takes has its number in the event
 * frame, 0x06 too. */
typedef struct {
    uint32_t steps;
    uint32_t stop;
    uint32_t code;
} HobbitAnswer;

/* The machine at the start: ID 0x0000003B, every other word 0. */
void hobbit_start(uint32_t registers[17], uint32_t cache[64]);

/* The register at its place in Table 1-1 (1 CONFIG to 13 VB) set to a word; SP sets MSP too, ID takes no word. No other word
 * changes. 0, or 2 and the registers as they were. */
uint32_t hobbit_set(uint32_t registers[17], uint32_t place, uint32_t value);

/* A register's word, with refusal 0; or refusal 2 and 0. */
typedef struct {
    uint32_t refusal;
    uint32_t value;
} HobbitWord;

HobbitWord hobbit_get(const uint32_t registers[17], uint32_t place);

/* Bytes stored from a physical address on, or loaded from it: 0, or 8 and all as it was. */
uint32_t hobbit_store(uint8_t *memory, size_t bytes, uint32_t address, const uint8_t *from, size_t count);
uint32_t hobbit_load(const uint8_t *memory, size_t bytes, uint32_t address, uint8_t *to, size_t count);

/* One step with the interrupt input at a level (7 is none), events taken: 0, or 1, 2, 3 or 4 and all as it was. */
uint32_t hobbit_step(uint8_t *memory, size_t bytes, uint32_t registers[17], uint32_t cache[64], uint32_t level);

/* Steps up to a budget: taking events, or confined, which stops before the first event sequence. Refusals 1, 2, 3 and 9
 * come before the first step, 4 after the finished ones. A budget of 0 does nothing. */
HobbitAnswer hobbit_run(uint8_t *memory, size_t bytes, uint32_t registers[17], uint32_t cache[64], bool confined,
                        uint32_t budget, uint32_t level);

/* ---- Decoding and encoding: an instruction is eight words.
 *   0  kind: HOBBIT_ONE_PARCEL, HOBBIT_DYADIC (two operands) or HOBBIT_MONADIC (one operand of 32 bits)
 *   1  row, by its number in the encodings lists: HOBBIT_SHORT_.., HOBBIT_DYADIC_.., HOBBIT_MONADIC_..
 *   2  length in parcels, prefix counted: 1 for one parcel, 3 to 6 for a dyadic, 3 or 4 for a monadic
 *   3  1 if there is a CPU prefix, which one parcel never has, else 0
 *   4  source mode of a dyadic, HOBBIT_MODE_..; mode of a monadic, HOBBIT_OPERAND_..
 *   5  source value, or the register's number; the operand of a monadic
 *   6  destination mode of a dyadic, HOBBIT_MODE_..
 *   7  destination value, or the register's number
 * A word that a kind has no use for is 0. Values are those that the instruction works with: fields of one parcel scaled and
 * extended, 16-bit immediates and offsets sign extended, 16-bit absolute addresses as they stand. The length is word 2; the
 * form of a dyadic, three or five parcels, is word 2 less word 3. A block whose words disagree names no instruction (5): one
 * parcel with a prefix or a length other than 1, a dyadic whose form is not 3 or 5, a monadic not of 3 + word 3 parcels. */
enum { HOBBIT_ONE_PARCEL = 1, HOBBIT_DYADIC = 2, HOBBIT_MONADIC = 3 };

/* Rows of one parcel: the parcel with its operand bits 0, which are the low ten, eight or none. */
enum {
    HOBBIT_SHORT_KCALL = 0x0000, HOBBIT_SHORT_CALL = 0x0400, HOBBIT_SHORT_JMP = 0x0C00,
    HOBBIT_SHORT_JMPFN = 0x1000, HOBBIT_SHORT_JMPFY = 0x1400, HOBBIT_SHORT_JMPTN = 0x1800,
    HOBBIT_SHORT_JMPTY = 0x1C00, HOBBIT_SHORT_MOV_WAI_STK = 0x2800, HOBBIT_SHORT_ADD3_WAI_STK = 0x3400,
    HOBBIT_SHORT_AND3_IMM_STK = 0x3800, HOBBIT_SHORT_AND_STK_STK = 0x3C00, HOBBIT_SHORT_CMPEQ_IMM_STK = 0x4000,
    HOBBIT_SHORT_CMPGT_STK_STK = 0x4400, HOBBIT_SHORT_CMPGT_IMM_STK = 0x4800, HOBBIT_SHORT_CMPEQ_STK_STK = 0x4C00,
    HOBBIT_SHORT_ADD_IMM_STK = 0x5000, HOBBIT_SHORT_ADD3_IMM_STK = 0x5400, HOBBIT_SHORT_ADD_STK_STK = 0x5800,
    HOBBIT_SHORT_ADD3_STK_STK = 0x5C00, HOBBIT_SHORT_MOV_STK_STK = 0x6000, HOBBIT_SHORT_MOV_ISTK_STK = 0x6400,
    HOBBIT_SHORT_MOV_STK_ISTK = 0x6800, HOBBIT_SHORT_MOV_ISTK_ISTK = 0x6C00, HOBBIT_SHORT_MOV_IMM_STK = 0x7000,
    HOBBIT_SHORT_MOVA_STK_STK = 0x7400, HOBBIT_SHORT_SHL3_UIMM_STK = 0x7800, HOBBIT_SHORT_SHR3_UIMM_STK = 0x7C00,
    HOBBIT_SHORT_ENTER = 0x0800, HOBBIT_SHORT_CATCH = 0x0900, HOBBIT_SHORT_RETURN = 0x0A00,
    HOBBIT_SHORT_POPN = 0x0B00, HOBBIT_SHORT_KRET = 0x2C01, HOBBIT_SHORT_NOP = 0x2C02,
    HOBBIT_SHORT_FLUSHI = 0x2C03, HOBBIT_SHORT_FLUSHP = 0x2C04, HOBBIT_SHORT_CRET = 0x2C05,
    HOBBIT_SHORT_TESTV = 0x2C08, HOBBIT_SHORT_TESTC = 0x2C09, HOBBIT_SHORT_CLRE = 0x2C0A
};

/* Rows of two operands: the opcode, the same with three and with five parcels. */
enum {
    HOBBIT_DYADIC_ORI = 0x01, HOBBIT_DYADIC_ANDI = 0x02, HOBBIT_DYADIC_ADDI = 0x03, HOBBIT_DYADIC_MOVA = 0x04,
    HOBBIT_DYADIC_UREM = 0x05, HOBBIT_DYADIC_MOV = 0x06, HOBBIT_DYADIC_DQM = 0x07, HOBBIT_DYADIC_TADD = 0x0C,
    HOBBIT_DYADIC_TSUB = 0x0D, HOBBIT_DYADIC_CMPGT = 0x1D, HOBBIT_DYADIC_CMPHI = 0x1E, HOBBIT_DYADIC_CMPEQ = 0x1F,
    HOBBIT_DYADIC_SUB = 0x20, HOBBIT_DYADIC_OR = 0x21, HOBBIT_DYADIC_AND = 0x22, HOBBIT_DYADIC_ADD = 0x23,
    HOBBIT_DYADIC_XOR = 0x24, HOBBIT_DYADIC_REM = 0x25, HOBBIT_DYADIC_MUL = 0x26, HOBBIT_DYADIC_DIV = 0x27,
    HOBBIT_DYADIC_SHR = 0x2C, HOBBIT_DYADIC_USHR = 0x2D, HOBBIT_DYADIC_SHL = 0x2E, HOBBIT_DYADIC_UDIV = 0x2F,
    HOBBIT_DYADIC_SUB3 = 0x30, HOBBIT_DYADIC_OR3 = 0x31, HOBBIT_DYADIC_AND3 = 0x32, HOBBIT_DYADIC_ADD3 = 0x33,
    HOBBIT_DYADIC_XOR3 = 0x34, HOBBIT_DYADIC_REM3 = 0x35, HOBBIT_DYADIC_MUL3 = 0x36, HOBBIT_DYADIC_DIV3 = 0x37,
    HOBBIT_DYADIC_SHR3 = 0x3C, HOBBIT_DYADIC_USHR3 = 0x3D, HOBBIT_DYADIC_SHL3 = 0x3E
};

/* Rows of one operand of 32 bits: the subcode. */
enum {
    HOBBIT_MONADIC_KCALL = 0x0, HOBBIT_MONADIC_CALL = 0x1, HOBBIT_MONADIC_RETURN = 0x2, HOBBIT_MONADIC_JMP = 0x3,
    HOBBIT_MONADIC_JMPFN = 0x4, HOBBIT_MONADIC_JMPFY = 0x5, HOBBIT_MONADIC_JMPTN = 0x6, HOBBIT_MONADIC_JMPTY = 0x7,
    HOBBIT_MONADIC_CATCH = 0x8, HOBBIT_MONADIC_ENTER = 0x9, HOBBIT_MONADIC_LDRAA = 0xA,
    HOBBIT_MONADIC_FLUSHPTE = 0xB, HOBBIT_MONADIC_FLUSHPBE = 0xC, HOBBIT_MONADIC_POPN = 0xF
};

/* Modes of a dyadic's operands: the codes of Table 1-21, and 16 for a register. */
enum {
    HOBBIT_MODE_ABSOLUTE_BYTE = 0, HOBBIT_MODE_ABSOLUTE_UBYTE = 1, HOBBIT_MODE_ABSOLUTE_HALF = 2,
    HOBBIT_MODE_ABSOLUTE_UHALF = 3, HOBBIT_MODE_STACK_BYTE = 4, HOBBIT_MODE_STACK_UBYTE = 5,
    HOBBIT_MODE_STACK_HALF = 6, HOBBIT_MODE_STACK_UHALF = 7, HOBBIT_MODE_INDIRECT_BYTE = 8,
    HOBBIT_MODE_INDIRECT_UBYTE = 9, HOBBIT_MODE_INDIRECT_HALF = 10, HOBBIT_MODE_INDIRECT_UHALF = 11,
    HOBBIT_MODE_ABSOLUTE_WORD = 12, HOBBIT_MODE_STACK_WORD = 13, HOBBIT_MODE_INDIRECT_WORD = 14,
    HOBBIT_MODE_IMMEDIATE = 15, HOBBIT_MODE_REGISTER = 16
};

/* Modes of a monadic's operand: the word modes of Table 1-21 and the modes of Table 1-23. */
enum {
    HOBBIT_OPERAND_WORD_ABSOLUTE = 0, HOBBIT_OPERAND_WORD_STACK = 1, HOBBIT_OPERAND_WORD_INDIRECT = 2,
    HOBBIT_OPERAND_WORD_IMMEDIATE = 3, HOBBIT_OPERAND_FLOW_ABSOLUTE_INDIRECT = 4,
    HOBBIT_OPERAND_FLOW_STACK_INDIRECT = 5, HOBBIT_OPERAND_FLOW_RELATIVE = 6, HOBBIT_OPERAND_FLOW_ABSOLUTE = 7
};

/* What parcels are that are no instruction: 0x100 and the exception of an illegal instruction, 0x100 and the vector's offset
 * of an unimplemented instruction and of a trapped niladic. */
enum { HOBBIT_ILLEGAL = 0x103, HOBBIT_TRAPPED = 0x108, HOBBIT_UNIMPLEMENTED = 0x10C };

/* Parcels are numbers of 16 bits, not bytes of memory: there a parcel is two bytes, the most significant first.
 *
 * The instruction that count parcels begin with: 0 and its words; or 6, HOBBIT_ILLEGAL, HOBBIT_TRAPPED or
 * HOBBIT_UNIMPLEMENTED, and the words as they were. Parcels after the instruction do not count.
 *
 * Bit 14 of the first parcel, or of the one after a prefix, chooses three parcels or five: it changes the length and the
 * operands' values in the words and nothing else, nor whether there is an instruction, but for opcode 0 (bits 13:8), which with
 * three parcels is the rows of one operand. */
uint32_t hobbit_decode(const uint16_t *parcels, size_t count, uint32_t instruction[8]);

/* The parcels of an instruction at the named length, which has to be word 2, the rest of the six 0: 0; or 5 and the parcels
 * as they were. */
uint32_t hobbit_encode(const uint32_t instruction[8], uint32_t length, uint16_t parcels[6]);

#endif
