/*
 * Ridgecrook for C: an interpreter of AVX512-FP16 machine code, one instruction a call, the half
 * arithmetic (IEEE 754 binary16) below it, and the replay of runs that were recorded elsewhere.
 *
 * Link with libridgecrook.a, which `make` writes to target/staticlib/. The library needs nothing
 * else (of the C library it calls memcpy and memset alone), and is compiled for plain x86-64: no
 * processor with AVX512-FP16 is asked for.
 *
 * A half is passed as the 16 bits that it consists of: 1 sign, 5 exponent and 10 fraction bits,
 * the sign highest. 1.0 is 0x3C00.
 *
 * The library keeps no state: what a function does depends on its arguments and on what they
 * point to, and it writes nowhere but where its description says (neither the processor's control
 * word nor errno, for example). Every function may be called from any thread at any time, as long
 * as no other thread writes what this call was lent, or reads what this call writes.
 *
 * R4.2 and the like are clauses of docs/RULES.md, which has every rule in full, with the definition
 * that is proved. This file is enough to use the library.
 */
#ifndef RIDGECROOK_H
#define RIDGECROOK_H

#include <stddef.h>
#include <stdint.h>

#ifdef __cplusplus
extern "C" {
#endif

/*
 * Answers (R4.1). The library has one table of answer numbers. The arithmetic gives only 0 and 9, a
 * step 0 to 5, 7 and 8, a save 0 to 2 and, where it is told a version, 10, a load or a move 0 to 2
 * and 10.
 *
 *    0  done
 *    1  the vector file has not 2,048 bytes, or the target of a save or a move not those needed
 *    2  the control word is above 0xFFFF
 *    3  the code ends too early
 *    4  the code begins with no instruction that is carried out
 *    5  reserved encoding
 *    6  no longer given: it was for an instruction of more than 15 bytes, and there is none (R4.12)
 *    7  a byte that is needed lies outside memory
 *    8  unmasked numeric exception
 *    9  rounding mode above 3: the half is 0x0000 and the flags are 0
 *   10  not a saved form, or no version of it
 */
#define RIDGECROOK_DONE 0
#define RIDGECROOK_BAD_SIZE 1
#define RIDGECROOK_BAD_CONTROL 2
#define RIDGECROOK_CUT_SHORT 3
#define RIDGECROOK_NOT_LISTED 4
#define RIDGECROOK_RESERVED 5
#define RIDGECROOK_TOO_LONG 6 /* no longer given */
#define RIDGECROOK_OUTSIDE_MEMORY 7
#define RIDGECROOK_EXCEPTION 8
#define RIDGECROOK_BAD_MODE 9
#define RIDGECROOK_BAD_SAVED 10

/* Rounding modes (R6.4), numbered as in bits 13 and 14 of the control word (MXCSR). */
#define RIDGECROOK_NEAREST 0     /* to the nearest half, ties to even */
#define RIDGECROOK_DOWN 1        /* toward minus infinity */
#define RIDGECROOK_UP 2          /* toward plus infinity */
#define RIDGECROOK_TOWARD_ZERO 3

/* Exception flags (R1.5), at their places in the control word (MXCSR). */
#define RIDGECROOK_IE 1  /* invalid: a signalling NaN, a quiet one that is signalled (R6.27), or an
                            operation without a result */
#define RIDGECROOK_DE 2  /* denormal: an operand is subnormal */
#define RIDGECROOK_ZE 4  /* a finite number other than zero was divided by zero */
#define RIDGECROOK_OE 8  /* overflow */
#define RIDGECROOK_UE 16 /* underflow */
#define RIDGECROOK_PE 32 /* precision: the half is not the exact result, or overflow */

/* What an operation hands back: 4 bytes, without padding. */
typedef struct {
    uint16_t half;  /* the result; 0x0000 where number is RIDGECROOK_BAD_MODE */
    uint8_t flags;  /* the flags that this operation raises, RIDGECROOK_IE to RIDGECROOK_PE or-ed;
                       bits 6 and 7 are 0 */
    uint8_t number; /* RIDGECROOK_DONE or RIDGECROOK_BAD_MODE */
} ridgecrook_rounded;

/*
 * The six operations that round (R8.1 to R8.3): pure functions that take every value of every
 * argument. Common to all:
 *
 *   a, b, c             The operands.
 *   mode                A rounding mode, 0 to 3. Any other number is refused: the answer is
 *                       RIDGECROOK_BAD_MODE, whatever the other arguments are.
 *   underflow_unmasked  0 is no, every other number is yes: whether the underflow exception is
 *                       unmasked. The half is the same either way. With no, a tiny result raises
 *                       RIDGECROOK_UE only if it is inexact; with yes, also if it is exact
 *                       (R6.23). Tiny is a result other than zero whose magnitude, rounded in the
 *                       same mode to 11 significant bits whatever the exponent, does not reach
 *                       2 to the -14 (R6.21).
 *
 * Both are 32 bits wide, so that no int or unsigned that a caller passes is cut to a valid one.
 *
 * The exact result is rounded once. A NaN operand is handed back made quiet, the first one if
 * there are several; the flag is then RIDGECROOK_IE if any operand is signalling, else none (R6.6).
 * An operation without a result (infinities that cancel, zero times infinity, 0/0, infinity divided
 * by infinity, the root of a number below zero) gives 0xFE00 and RIDGECROOK_IE alone (R6.7). A
 * finite number other than zero divided by zero gives an infinity and RIDGECROOK_ZE alone (R6.8).
 * Subnormal operands and results are never taken as zero.
 */

/* a + b */
ridgecrook_rounded ridgecrook_add(uint16_t a, uint16_t b, uint32_t mode,
                                  uint32_t underflow_unmasked);

/* a - b; a NaN in b keeps its sign (R6.13) */
ridgecrook_rounded ridgecrook_subtract(uint16_t a, uint16_t b, uint32_t mode,
                                       uint32_t underflow_unmasked);

/* a * b */
ridgecrook_rounded ridgecrook_multiply(uint16_t a, uint16_t b, uint32_t mode,
                                       uint32_t underflow_unmasked);

/* a / b */
ridgecrook_rounded ridgecrook_divide(uint16_t a, uint16_t b, uint32_t mode,
                                     uint32_t underflow_unmasked);

/* The square root of a; for -0 it is -0 (R6.14). */
ridgecrook_rounded ridgecrook_square_root(uint16_t a, uint32_t mode, uint32_t underflow_unmasked);

/* a * b + c, the product exact and the sum rounded once (R6.15) */
ridgecrook_rounded ridgecrook_fused_multiply_add(uint16_t a, uint16_t b, uint16_t c, uint32_t mode,
                                                 uint32_t underflow_unmasked);

/*
 * The three operations that compare (R8.5): pure functions too. They round nothing, so they take no
 * mode, and their number is always RIDGECROOK_DONE. Halves compare as the numbers that they are,
 * infinities beyond all others; the two zeros are equal, and a NaN is unordered with everything
 * (R6.25).
 *
 * Of minimum and maximum any NaN raises RIDGECROOK_IE; of a comparison a signalling NaN does, and a
 * quiet one if the predicate signals. Without a NaN a subnormal operand raises RIDGECROOK_DE. No
 * other flag is raised (R6.27).
 *
 * VMINPH, VMAXPH and VCMPPH do the same in each lane, with a from the first source and b from the
 * second.
 */

/* a where it is less than b, and else b as it is: also where one of them is a NaN, signalling or
   not, or both are zeros of whatever sign (R6.26) */
ridgecrook_rounded ridgecrook_minimum(uint16_t a, uint16_t b);

/* a where it is greater than b, and else b as it is, likewise */
ridgecrook_rounded ridgecrook_maximum(uint16_t a, uint16_t b);

/*
 * Whether a predicate holds of a and b: the half is 0x0001 for yes and 0x0000 for no. The lowest
 * five bits of `immediate`, the byte that ends a VCMPPH, are the predicate's number, and all others
 * are not read: any value will do. The 32 predicates (R6.28), with Intel's names; the five columns
 * say what one answers where a is less than b, equal, greater or unordered, and whether a quiet
 * NaN is signalled:
 *
 *    0 EQ_OQ    . E . . .    8 EQ_UQ    . E . U .   16 EQ_OS    . E . . S   24 EQ_US    . E . U S
 *    1 LT_OS    L . . . S    9 NGE_US   L . . U S   17 LT_OQ    L . . . .   25 NGE_UQ   L . . U .
 *    2 LE_OS    L E . . S   10 NGT_US   L E . U S   18 LE_OQ    L E . . .   26 NGT_UQ   L E . U .
 *    3 UNORD_Q  . . . U .   11 FALSE_OQ . . . . .   19 UNORD_S  . . . U S   27 FALSE_OS . . . . S
 *    4 NEQ_UQ   L . G U .   12 NEQ_OQ   L . G . .   20 NEQ_US   L . G U S   28 NEQ_OS   L . G . S
 *    5 NLT_US   . E G U S   13 GE_OS    . E G . S   21 NLT_UQ   . E G U .   29 GE_OQ    . E G . .
 *    6 NLE_US   . . G U S   14 GT_OS    . . G . S   22 NLE_UQ   . . G U .   30 GT_OQ    . . G . .
 *    7 ORD_Q    L E G . .   15 TRUE_UQ  L E G U .   23 ORD_S    L E G . S   31 TRUE_US  L E G U S
 */
ridgecrook_rounded ridgecrook_compare(uint16_t a, uint16_t b, uint32_t immediate);

/* The state of a machine, as a step takes it (R1.1 to R1.7). */
#define RIDGECROOK_VECTORS_SIZE 2048    /* the vector file: 32 registers of 64 bytes */
#define RIDGECROOK_REGISTER_SIZE 64     /* one vector register: 32 lanes of 2 bytes */
#define RIDGECROOK_MASKS 8              /* the mask registers k0 to k7 */
#define RIDGECROOK_GENERAL 16           /* the general registers RAX, RCX, RDX, RBX, RSP, RBP, RSI,
                                           RDI, R8 to R15, by their numbers in the encoding */
#define RIDGECROOK_CONTROL_RESET 0x1F80 /* the control word (MXCSR) of a processor after reset: no
                                           flag, every exception masked, rounding to nearest */

/* What a step hands back (R4.17): 8 bytes, without padding. */
typedef struct {
    uint32_t number; /* 0 to 5, 7 or 8, see the table of answers */
    uint32_t length; /* with RIDGECROOK_DONE the instruction's length in bytes, 6 to 12 (R3.14) and
                        at most code_length; else 0 */
} ridgecrook_answer;

/*
 * Carries out one instruction, the one that `code` begins with: a packed VADDPH, VSUBPH, VMULPH,
 * VDIVPH, VSQRTPH, VFMADD132PH, VFMADD213PH, VFMADD231PH, VMINPH, VMAXPH or VCMPPH, or a scalar
 * VADDSH, VSUBSH, VMULSH, VDIVSH, VSQRTSH, VFMADD132SH, VFMADD213SH or VFMADD231SH, with registers
 * or memory, in 64-bit mode (R2.1).
 *
 *   vectors, vectors_length  The vector file: the 32 registers in rising order, each with its 32
 *                            lanes in rising order, a half with its low byte first (R1.2, R1.3).
 *                            A length other than RIDGECROOK_VECTORS_SIZE is refused.
 *   masks                    k0 to k7. VCMPPH writes one of them, and no other instruction does.
 *   general                  The general registers; only read.
 *   control                  The control word, laid out as MXCSR (R1.5): bits 0 to 5 are flags,
 *                            7 to 12 mask the same exceptions, 13 and 14 are the rounding mode.
 *                            Bits 6 and 15 (DAZ and FZ) have no effect (R1.6). A word above 0xFFFF
 *                            is refused.
 *   pointer                  RIP: the address of this instruction. Operands relative to RIP count
 *                            from it plus the instruction's length (R5.4).
 *   code, code_length        The bytes from the instruction on; only read. What stands behind the
 *                            instruction has no effect, so the rest of a program may be lent; its
 *                            first 12 bytes are always enough (R4.18). Lend 15 to be ready for
 *                            instructions of later versions: none on x86 is longer.
 *   memory, memory_length    What stands at the addresses 0 to memory_length - 1; only read. All
 *                            other addresses lie outside memory (R1.8).
 *
 * The bit b of the prefix (EVEX.b, R3.8): with memory, one word serves all lanes (broadcast). With
 * registers the vector has 32 lanes, whatever the length bits say: these are the rounding mode then
 * (embedded rounding), and all exceptions count as masked. Of VMINPH, VMAXPH and VCMPPH, which
 * round nothing, it has the latter effect alone: it suppresses exceptions.
 *
 * What each answer leaves:
 *
 *   RIDGECROOK_DONE       The destination is written. Of a packed instruction lanes that are off
 *                         keep their half, or become 0 with zeroing, and what lies above the
 *                         vector becomes 0 (R5.9). Of a scalar one that goes for lane 0, by bit 0
 *                         of the mask; lanes 1 to 7 become the first source's (the three fused
 *                         keep the destination's), and lanes 8 to 31 become 0 (R5.10). Of VCMPPH
 *                         it is a mask, k0 too, of which all 64 bits are written: bit j is lane
 *                         j's answer, and 0 where the lane is off or above the vector (R5.11).
 *                         The flags that lanes that are on raise are set in *control, except under
 *                         embedded rounding and where exceptions are suppressed (R7.2, R7.5).
 *                         *pointer has grown by the length, and wraps at 2 to the 64 (R4.15). All
 *                         else is as it was.
 *   RIDGECROOK_EXCEPTION  A lane that is on raised an exception whose mask bit is 0 (R7.3); with
 *                         embedded rounding and suppression all are masked (R7.5). Of the flags
 *                         that lanes that are on raise, masked exceptions' too, these are set in
 *                         *control (R7.4): where IE, DE or ZE is raised with its mask bit 0, only
 *                         those of the three that are raised, in whatever lane, since nothing is
 *                         rounded then; else all. (The processors tried leave PE out in one case,
 *                         R7.6.) All else is as it was. Flags that *control had before count for
 *                         nothing.
 *   every other number    All is as it was (R4.16).
 *
 * If there is cause for several answers, the first in this order is given (R4.3 to R4.14):
 *
 *    1  the length of the vector file
 *    2  the control word
 *    3  no code at all
 *    4  another first byte than 0x62
 *    3  less than six bytes
 *    5  a fixed bit of the prefix is wrong: 1 in bit 3 of byte 1, or 0 in bit 2 of byte 2
 *    4  an instruction that is not named above
 *    5  length bits 3 but for registers with the bit b, zeroing without a mask, VSQRTPH with bits
 *       for a first source, a scalar instruction with memory and the bit b, or VCMPPH with zeroing
 *       or with a destination above k7 (R4.10)
 *    3  the SIB byte, a byte of the displacement or the immediate is not there
 *    7  a byte outside memory is needed
 *    8  an unmasked exception
 *
 * The pointers (R8.4) are all that is left to the caller: the proof covers every value of every
 * argument, but cannot see whether a pointer is good for its length. `vectors`, `masks`, `control`
 * and `pointer` are written: what one of them points to, at its whole length, may overlap nothing
 * else that is lent to the call. `general`, `code` and `memory` are only read and may overlap one
 * another, but none of those four. `code` may be null where code_length is 0, and `memory` where
 * memory_length is 0; no other pointer may be null. `masks` points to RIDGECROOK_MASKS numbers and
 * `general` to RIDGECROOK_GENERAL. What points to uint32_t or uint64_t is aligned as these are;
 * bytes need no alignment.
 */
ridgecrook_answer ridgecrook_step(uint8_t *vectors, size_t vectors_length, uint64_t masks[8],
                                  const uint64_t general[16], uint32_t *control, uint64_t *pointer,
                                  const uint8_t *code, size_t code_length, const uint8_t *memory,
                                  size_t memory_length);

/*
 * The saved form of a state (R9.1, R9.2): bytes to keep or to send, in one of two versions. Version
 * 2 leaves out the vector registers that are all zero. Every number has its highest byte first.
 *
 *   at    bytes
 *      0      4  the length field: the number of bytes that follow these four
 *      4      1  the version: 1 or 2
 *      5      4  the control word
 *      9      8  the pointer
 *     17    128  the general registers, 8 bytes each, in rising order
 *    145     64  the masks k0 to k7, 8 bytes each, in rising order
 *    209         version 1: the vector file as a step takes it, 2,048 bytes
 *                version 2: the vector file packed (R9.8), in two parts:
 *    209      4    a word whose bit i (bit 0 is the lowest) is 1 where register i is present
 *    213           the present registers, RIDGECROOK_REGISTER_SIZE bytes each, in rising order
 *
 * A register is present exactly if one of its bytes is not 0; so negative zeros make it present. A
 * state has one saved form in each version.
 *
 * Its size (R9.9) is RIDGECROOK_SAVED_SIZE in version 1. In version 2 it is 213 bytes and 64 more
 * for each register that is present: less than in version 1, or 4 bytes more if all 32 are. Where
 * other bytes stand behind a saved form, it ends at 4 plus its length field (R9.13);
 * in bytes that may be damaged that field may hold anything, so hold it against
 * RIDGECROOK_SAVED_LARGEST - 4 before adding.
 *
 * Libraries from before version 2 load version 1 alone.
 */
#define RIDGECROOK_SAVED_SIZE 2257    /* of version 1: too small for version 2 with all registers */
#define RIDGECROOK_SAVED_LARGEST 2261 /* of either version: a buffer that holds any saved form */

/*
 * Saving, loading, and moving a saved form to another version. A target is lent at the exact size
 * that is needed, so that size is asked for first; the buffer itself may be larger. Here a state is
 * saved in version 2, and what was saved is moved to version 1:
 *
 *     uint8_t bytes[RIDGECROOK_SAVED_LARGEST], moved[RIDGECROOK_SAVED_LARGEST];
 *     size_t size = ridgecrook_saved_size(2, vectors, RIDGECROOK_VECTORS_SIZE);
 *     uint32_t number = ridgecrook_save_version(2, vectors, RIDGECROOK_VECTORS_SIZE, masks,
 *                                               general, control, pointer, bytes, size);
 *     if (number == RIDGECROOK_DONE) {
 *         size_t moved_size = ridgecrook_moved_size(1, bytes, size);
 *         number = ridgecrook_move(1, bytes, size, moved, moved_size);
 *     }
 *
 * A size of 0 need not be looked at: the save or the move that is given it answers what is wrong.
 *
 * Common to the six functions that follow:
 *
 *   version                  1 or 2. There is no other; it is 32 bits wide, so that no int or
 *                            unsigned that a caller passes is cut to a valid one.
 *   vectors, vectors_length  The vector file, as a step takes it. A length other than
 *                            RIDGECROOK_VECTORS_SIZE is refused.
 *   masks, general           The registers k0 to k7, and the general registers.
 *   control, pointer         The control word and the pointer. A control word above 0xFFFF is
 *                            refused, a saved one too.
 *   target, target_length    Where a saved form is written. A length other than the size needed is
 *                            refused, a greater one too.
 *   saved, saved_length,     A saved form of either version, which its byte 4 tells, and nothing
 *   source, source_length    behind it.
 *
 * Bytes are not a saved form (R9.5) if one of these holds:
 *
 *   - byte 4 is neither 1 nor 2, or there is none
 *   - their number is not RIDGECROOK_SAVED_SIZE in version 1, or in version 2 not 213 and 64 for
 *     each bit that is set in the word at 209; less than 213 are never a saved form
 *   - the length field is not the number of the bytes behind it
 *   - in version 2, a register that is marked as present is all zero
 *
 * Every answer but RIDGECROOK_DONE is a refusal, and leaves all that was lent as it was (R9.6).
 *
 * The pointers (R8.4). Pointers to const are only read from, and what they point to may overlap.
 * The others are written to: what one of them points to, at its whole length, may overlap nothing
 * else that is lent to the call. `vectors`, `target`, `saved` and `source` may be null where the
 * length beside them is 0 (which is refused, or gives size 0); no other pointer may be null.
 * `masks` points to RIDGECROOK_MASKS numbers and `general` to RIDGECROOK_GENERAL. What points to
 * uint32_t or uint64_t is aligned as these are; bytes need no alignment.
 */

/* The size that a save of this vector file in that version needs (R9.12). It is 0 where there is no
   such version, or vectors_length is not RIDGECROOK_VECTORS_SIZE. */
size_t ridgecrook_saved_size(uint32_t version, const uint8_t *vectors, size_t vectors_length);

/*
 * Writes the saved form of a state (R9.4). The answer is the first of these that applies:
 *
 *   RIDGECROOK_BAD_SAVED    there is no such version
 *   RIDGECROOK_BAD_SIZE     vectors_length is not RIDGECROOK_VECTORS_SIZE
 *   RIDGECROOK_BAD_SIZE     target_length is not what ridgecrook_saved_size says
 *   RIDGECROOK_BAD_CONTROL  the control word is above 0xFFFF
 *   RIDGECROOK_DONE         every byte of the target is written
 */
uint32_t ridgecrook_save_version(uint32_t version, const uint8_t *vectors, size_t vectors_length,
                                 const uint64_t masks[8], const uint64_t general[16],
                                 uint32_t control, uint64_t pointer, uint8_t *target,
                                 size_t target_length);

/* The same in version 1, where the size needed is RIDGECROOK_SAVED_SIZE. */
uint32_t ridgecrook_save(const uint8_t *vectors, size_t vectors_length, const uint64_t masks[8],
                         const uint64_t general[16], uint32_t control, uint64_t pointer,
                         uint8_t *target, size_t target_length);

/*
 * Reads a state from its saved form (R9.3); a register that is not present becomes zero. What the
 * state was before the call, *control too, is not looked at. A state that is saved and loaded comes
 * back unchanged, and so do bytes that are loaded and saved in the same version (R9.7). The answer
 * is the first of these that applies (R9.5):
 *
 *   RIDGECROOK_BAD_SIZE     vectors_length is not RIDGECROOK_VECTORS_SIZE
 *   RIDGECROOK_BAD_SAVED    `saved` is not a saved form
 *   RIDGECROOK_BAD_CONTROL  the saved control word is above 0xFFFF
 *   RIDGECROOK_DONE         vectors, masks, general, *control and *pointer are all written
 */
uint32_t ridgecrook_load(const uint8_t *saved, size_t saved_length, uint8_t *vectors,
                         size_t vectors_length, uint64_t masks[8], uint64_t general[16],
                         uint32_t *control, uint64_t *pointer);

/* The size that a move of this source to that version needs (R9.12). It is 0 where there is no such
   version, the source is not a saved form, or its control word is above 0xFFFF. */
size_t ridgecrook_moved_size(uint32_t version, const uint8_t *source, size_t source_length);

/*
 * Writes the state that `source` holds, in the version asked for: the bytes are those that a load
 * and a save would give (R9.11). To the source's own version that is a copy; to the other version
 * and back again, the bytes are those of the source. The answer is the first of these that applies
 * (R9.10); the first two have one number, so a caller that is not sure of `version` looks at that:
 *
 *   RIDGECROOK_BAD_SAVED    there is no such version
 *   RIDGECROOK_BAD_SAVED    `source` is not a saved form
 *   RIDGECROOK_BAD_CONTROL  the source's control word is above 0xFFFF
 *   RIDGECROOK_BAD_SIZE     target_length is not what ridgecrook_moved_size says
 *   RIDGECROOK_DONE         every byte of the target is written
 */
uint32_t ridgecrook_move(uint32_t version, const uint8_t *source, size_t source_length,
                         uint8_t *target, size_t target_length);

/*
 * A recording (R14.1, R14.2): a run as it went elsewhere. It is a saved form of either version, and
 * behind it one item for each step, up to the end. Of an item with c bytes of code and m bytes of
 * memory, with the highest byte of every number first:
 *
 *   at         bytes
 *           0      4  the length: the number of bytes that follow these four, 73 + c + m
 *           4      1  the version, 1
 *           5      1  the answer that the step is to give
 *           6      1  c, at most 15; of longer code the first 15 bytes are enough
 *           7      c  the code
 *       7 + c      2  m, at most 4,096
 *       9 + c      m  the memory, at the addresses 0 to m - 1
 *   9 + c + m      4  the control word that is to stand after the step
 *  13 + c + m     64  the destination that is to stand after it (R14.5): where our step answers 0,
 *                     7 or 8 all 64 bytes of the vector register that the instruction names, as a
 *                     step takes it, or a mask, its highest byte first, and 56 zeros; where it
 *                     answers anything else 64 zeros
 *
 * With 7 and 8 a step leaves its destination as it was, so that is what stands here. The number of
 * the destination (R3.6): bits 3 to 5 of byte 5 of the code, 8 more where bit 7 of byte 1 is 0, 16
 * more where bit 4 of byte 1 is 0. Of VCMPPH it is a mask's number, of every other a register's.
 *
 * An item is well formed (R14.3) if all its bytes are there, its length is 73 + c + m, its version
 * is 1, and c and m are not above their limits. Bytes behind the last whole item are an item that
 * is not well formed.
 *
 * No item sets registers. General registers stay as they were saved, and the pointer moves with
 * answer 0 alone: where other code wrote registers between two steps, a new recording begins.
 *
 *     // writes an item of RIDGECROOK_ITEM_SIZE(c, m) bytes
 *     void put_item(uint8_t *item, uint8_t answer, const uint8_t *code, size_t c,
 *                   const uint8_t *memory, size_t m, uint32_t control,
 *                   const uint8_t destination[RIDGECROOK_REGISTER_SIZE]) {
 *         size_t length = RIDGECROOK_ITEM_SIZE(c, m) - 4, at = 9 + c + m;
 *         for (int i = 0; i < 4; i++) {
 *             item[i] = (uint8_t)(length >> (24 - 8 * i));
 *             item[at + (size_t)i] = (uint8_t)(control >> (24 - 8 * i));
 *         }
 *         item[4] = RIDGECROOK_ITEM_VERSION;
 *         item[5] = answer;
 *         item[6] = (uint8_t)c;
 *         memcpy(item + 7, code, c);
 *         item[7 + c] = (uint8_t)(m >> 8);
 *         item[8 + c] = (uint8_t)m;
 *         memcpy(item + 9 + c, memory, m);
 *         memcpy(item + at + 4, destination, RIDGECROOK_REGISTER_SIZE);
 *     }
 */
#define RIDGECROOK_ITEM_VERSION 1
#define RIDGECROOK_ITEM_CODE 15     /* the most bytes of code in an item */
#define RIDGECROOK_ITEM_MEMORY 4096 /* and of memory */
#define RIDGECROOK_ITEM_SIZE(c, m) (77 + (size_t)(c) + (size_t)(m))

/* The reports of a replay (R14.7); they are no answers, and have numbers of their own. */
#define RIDGECROOK_REPORT_SAME 0      /* no item is ill formed, and none differs */
#define RIDGECROOK_REPORT_DIFFERS 1   /* an item is well formed and does not agree */
#define RIDGECROOK_REPORT_BAD_ITEM 2  /* an item is not well formed */
#define RIDGECROOK_REPORT_BAD_STATE 3 /* what stands in front does not load */

/* What a replay hands back: 16 bytes, without padding. */
typedef struct {
    uint64_t report; /* RIDGECROOK_REPORT_SAME to RIDGECROOK_REPORT_BAD_STATE */
    uint64_t item;   /* of one that differs or is bad its number, counted from 0; where all are the
                        same how many there are; where the state is bad 0 */
} ridgecrook_report;

/*
 * Replays a recording (R14.4 to R14.9): loads the saved form in front, makes the step of each item
 * on its own code and memory, and holds what it gives against the item. Each step goes on from the
 * state that the one before has left, whatever its answer was, and never from what an item expects.
 *
 * An item agrees if the step's answer, the control word after it and the destination are the item's
 * (R14.6). A number that no step answers does not agree, nor does a control word above 0xFFFF;
 * neither makes an item ill formed. Of each item it is asked first whether it is well formed, then
 * whether it agrees. The replay ends with the first no, and nothing behind that item is looked at.
 * The report is
 *
 *   .._BAD_STATE  the recording is shorter than its first length field says, the bytes in front are
 *                 not a saved form, or have a control word above 0xFFFF
 *   .._BAD_ITEM   item `item` is not well formed, all before it are and agree
 *   .._DIFFERS    item `item` is well formed and does not agree, all before it do
 *   .._SAME       none of these: there are `item` items, up to the last byte, and all agree
 *
 * What no step's answer, control word or destination depends on is not seen: pointer, length and
 * other registers are in no item, and a recording has no checksum. To see what differs, give the
 * recording to `case replay` (tools/case), or load the saved form and make the steps up to that
 * item by ridgecrook_step. `record` (tools/record) writes recordings of a processor.
 *
 * A recording may have any length and any number of items. It is only read, and not copied; the
 * state that the steps are made on is on the stack, of which a call takes some 4 KB. Nothing that
 * was lent is written, whatever the report.
 *
 * The pointer (R8.4): `recording` is good for recording_length bytes, and may be null where that is
 * 0 (RIDGECROOK_REPORT_BAD_STATE). It needs no alignment.
 */
ridgecrook_report ridgecrook_replay(const uint8_t *recording, size_t recording_length);

#ifdef __cplusplus
}
#endif

#endif
