/* Prints, for each word of the call, the angle that the command takes it for, and whether exactly, or 'none'; a line each. */
#include <stdio.h>
#include "../command/angle.h"

int main(int count, char **words) {
    for (int i = 1; i < count; i++) {
        uint32_t angle;
        int exact;
        if (angle_from(words[i], &angle, &exact)) printf("%u %s\n", angle, exact ? "exact" : "rounded");
        else printf("none\n");
    }
    return 0;
}
