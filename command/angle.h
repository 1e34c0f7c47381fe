/* Angles as they are typed. An angle is an unsigned part of a turn; a turn has 2^32 parts. */
#ifndef ANGLE_H
#define ANGLE_H
#include <stdint.h>

/* The angle that a text stands for: a number of parts, 0 to 4294967295, in decimal or as 0x and hexadecimal digits; degrees, as
   -12.5deg; turns, as 0.125t. Degrees and turns have any size and any number of digits, and wrap. Their exact value is rounded to
   the nearest part, a tie away from zero; `exact` says whether they need not be. False, and no angle, where the text is none of
   these. */
int angle_from(const char *text, uint32_t *angle, int *exact);
#endif
