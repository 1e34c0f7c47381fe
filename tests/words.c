/* Prints what vp_message says of each number up to the one that is given, a line each. */
#include <stdio.h>
#include <stdlib.h>
#include "valvepigeon.h"

int main(int count, char **words) {
    unsigned long most = count == 2 ? strtoul(words[1], NULL, 10) : 0;
    for (uint32_t refused = 0; refused <= most; refused++) printf("%s\n", vp_message(refused));
    return 0;
}
