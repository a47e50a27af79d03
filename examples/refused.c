/* A refused call changes nothing: each refusal of a setting, a run, a step, a decoding and an encoding is met with blocks and
 * memory full of other words, which must be there afterwards; so must they after a run of budget 0. Prints the refusals. */
#include <inttypes.h>
#include <stdio.h>
#include <string.h>

#include "hobbit.h"

/* places of Table 1-1, which count from 1 */
enum { MSP = 5, PSW = 7, SP = 9, NMI_TAKEN = 17, PAGE = 4096 };

static uint8_t memory[2 * PAGE], memory_before[2 * PAGE];
static uint32_t registers[17], before[17], cache[64], cache_before[64], instruction[8], instruction_before[8];
static uint16_t parcels[6], parcels_before[6];

static void keep(void)
{
    memcpy(memory_before, memory, sizeof memory);
    memcpy(before, registers, sizeof registers);
    memcpy(cache_before, cache, sizeof cache);
    memcpy(instruction_before, instruction, sizeof instruction);
    memcpy(parcels_before, parcels, sizeof parcels);
}

static int same(void)
{
    return !memcmp(memory_before, memory, sizeof memory) && !memcmp(before, registers, sizeof registers)
           && !memcmp(cache_before, cache, sizeof cache) && !memcmp(parcels_before, parcels, sizeof parcels)
           && !memcmp(instruction_before, instruction, sizeof instruction);
}

static void tell(const char *what, uint32_t refusal)
{
    printf("%s: %" PRIu32 ", %s\n", what, refusal, same() ? "nothing changed" : "CHANGED");
}

/* for a call that has changed what it should */
static void tell_done(const char *what, uint32_t refusal)
{
    printf("%s: %" PRIu32 ", %s\n", what, refusal, same() ? "nothing else changed" : "CHANGED");
}

/* Word 2 is the length, prefix counted: at no other length is there a code, and with words that disagree there is none. */
static void texts(void)
{
    /* MOV 5, SP after a prefix */
    static const uint16_t move[6] = {0x2C00, 0x86F7, 5, 3};
    static const uint32_t words[8] = {
        HOBBIT_DYADIC, HOBBIT_DYADIC_MOV, 4, 1, HOBBIT_MODE_IMMEDIATE, 5, HOBBIT_MODE_REGISTER, 3};
    static const uint32_t uncounted[8] = {
        HOBBIT_DYADIC, HOBBIT_DYADIC_MOV, 3, 1, HOBBIT_MODE_IMMEDIATE, 5, HOBBIT_MODE_REGISTER, 3};
    static const uint32_t add[8] = {HOBBIT_ONE_PARCEL, HOBBIT_SHORT_ADD_IMM_STK, 3, 0, 0, 5, 0, 0};
    static const uint32_t call[8] = {HOBBIT_MONADIC, HOBBIT_MONADIC_CALL, 4, 0, HOBBIT_OPERAND_FLOW_ABSOLUTE, 0x1000, 0, 0};

    memset(instruction, 0xA5, sizeof instruction);
    memset(parcels, 0xA5, sizeof parcels);
    keep();
    tell("no parcel decoded", hobbit_decode(move, 0, instruction));
    tell("a prefixed MOV decoded without its last parcel", hobbit_decode(move, 3, instruction));
    tell("a prefixed MOV encoded at 3", hobbit_encode(words, 3, parcels));
    tell("a prefixed MOV with length 3, encoded at 3", hobbit_encode(uncounted, 3, parcels));
    tell("a prefixed MOV with length 3, encoded at 4", hobbit_encode(uncounted, 4, parcels));
    tell("an ADD of one parcel with length 3, encoded at 3", hobbit_encode(add, 3, parcels));
    tell("an ADD of one parcel with length 3, encoded at 1", hobbit_encode(add, 1, parcels));
    tell("a CALL without a prefix with length 4, encoded at 4", hobbit_encode(call, 4, parcels));
    tell("a CALL without a prefix with length 4, encoded at 3", hobbit_encode(call, 3, parcels));
    memcpy(instruction_before, words, sizeof words);
    tell_done("a prefixed MOV decoded, length 4", hobbit_decode(move, 4, instruction));
    memcpy(parcels_before, move, sizeof move);
    tell_done("a prefixed MOV encoded at word 2", hobbit_encode(instruction, instruction[2], parcels));
}

int main(void)
{
    hobbit_start(registers, cache);
    memset(memory, 0xA5, sizeof memory);
    for (int i = 0; i < 64; i++)
        cache[i] = 0x01010101u * (uint32_t)i;
    /* a word that says of nothing that it is due */
    registers[NMI_TAKEN - 1] = 7;
    keep();
    tell("no such register", hobbit_set(registers, 99, 0));
    tell("a reserved bit of PSW", hobbit_set(registers, PSW, 8));
    tell("a run on part of a page", hobbit_run(memory, PAGE - 1, registers, cache, false, 5, 7).code);
    tell("a run at level 8", hobbit_run(memory, PAGE, registers, cache, false, 5, 8).code);
    tell("a confined run at kernel level", hobbit_run(memory, PAGE, registers, cache, true, 5, 7).code);
    tell("a step on part of a page", hobbit_step(memory, PAGE - 1, registers, cache, 7));
    tell("a step at level 8", hobbit_step(memory, PAGE, registers, cache, 8));
    tell("a run of budget 0", hobbit_run(memory, PAGE, registers, cache, false, 0, 7).code);
    registers[PSW - 1] = 8;
    keep();
    tell("a run with a reserved bit of PSW", hobbit_run(memory, PAGE, registers, cache, false, 5, 7).code);
    tell("a step with a reserved bit of PSW", hobbit_step(memory, PAGE, registers, cache, 7));
    registers[PSW - 1] = 0;
    before[PSW - 1] = 0;
    before[SP - 1] = before[MSP - 1] = 0x100;
    tell_done("SP set, and MSP with it", hobbit_set(registers, SP, 0x100));
    texts();
    return hobbit_interface() == HOBBIT_INTERFACE ? 0 : 1;
}
