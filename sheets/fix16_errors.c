/* Prints how far libfixmath's fix16_sin lies from the true sine at most, over every word of it from -pi to pi, in its own steps of
   2^-16 and in ours of 2^-24, rounded up to 1/100. */
#include <libfixmath/fix16.h>
#include <math.h>
#include <stdio.h>

enum { ONE = 1 << 16, PI = 205887 };

int main(void) {
    double most = 0;
    int at = 0;
    for (int x = -PI; x <= PI; x++) {
        double error = fabs(fix16_sin(x) - sin((double)x / ONE) * ONE);
        if (error > most) most = error, at = x;
    }
    printf("fix16_sin: %.2f steps of 2^-16, which are %.2f of 2^-24, of the word %d\n", ceil(100 * most) / 100,
           ceil(100 * 256 * most) / 100, at);
    return 0;
}
