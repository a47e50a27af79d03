/* What parcels say: each argument is one, in hexadecimal. Prints the decoder's number, and the eight words of an instruction. */
#include <inttypes.h>
#include <stdio.h>
#include <stdlib.h>

#include "hobbit.h"

enum { PARCELS = 6, WORDS = 8 };

int main(int count, char **arguments)
{
    uint16_t parcels[PARCELS];
    uint32_t instruction[WORDS];
    size_t given = 0;

    if (hobbit_interface() != HOBBIT_INTERFACE)
        return EXIT_FAILURE;
    while (given < PARCELS && (int)given + 1 < count) {
        parcels[given] = (uint16_t)strtoul(arguments[given + 1], NULL, 16);
        given++;
    }
    uint32_t number = hobbit_decode(parcels, given, instruction);
    printf("%" PRIX32, number);
    for (int i = 0; number == 0 && i < WORDS; i++)
        printf(" %" PRIX32, instruction[i]);
    putchar('\n');
    return EXIT_SUCCESS;
}
