/* Loads a rule of three instructions at user level, runs it confined and prints what the board would print for the same
 * frames. The rule adds 5 to a stack word twice and calls the kernel. */
#include <inttypes.h>
#include <stdio.h>

#include "hobbit.h"

enum { PC = 6, PSW = 7, SP = 9, STB = 10 };

static uint8_t memory[65536];

int main(void)
{
    uint32_t registers[17], cache[64];
    /* one nonpaged segment of sixteen pages at 0: valid, writable, for users */
    static const uint8_t segment[] = {0x00, 0x00, 0xF0, 0x0F};
    /* ADD 5, R0; ADD 5, R0; KCALL 4 */
    static const uint8_t rule[] = {0x50, 0xA0, 0x50, 0xA0, 0x00, 0x01};

    if (hobbit_interface() != HOBBIT_INTERFACE)
        return 1;
    hobbit_start(registers, cache);
    hobbit_store(memory, sizeof memory, 0x8000, segment, sizeof segment);
    hobbit_store(memory, sizeof memory, 0x1000, rule, sizeof rule);
    hobbit_set(registers, STB, 0x8000);
    hobbit_set(registers, SP, 0x3000);
    hobbit_set(registers, PC, 0x1000);
    hobbit_set(registers, PSW, 0x10600);

    HobbitAnswer a = hobbit_run(memory, sizeof memory, registers, cache, true, 10, 7);
    printf("83%08" PRIX32 "%02" PRIX32 "%02" PRIX32 "%08" PRIX32 "%08" PRIX32 "\n", a.steps, a.stop, a.code,
           hobbit_get(registers, PC).value, hobbit_get(registers, PSW).value);
    return 0;
}
