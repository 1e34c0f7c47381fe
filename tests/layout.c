/* Prints each struct of include/valvepigeon.h, its size and where its fields stand, for the bindings to be compared with. */
#include <stddef.h>
#include <stdio.h>
#include "valvepigeon.h"

#define STRUCT(type) printf(#type " %zu\n", sizeof(type))
#define FIELD(type, field) printf(#type "." #field " %zu\n", offsetof(type, field))
#define HEAD(type) (STRUCT(type), FIELD(type, refused), FIELD(type, place))

int main(void) {
    STRUCT(vp_fields);
    FIELD(vp_fields, kind), FIELD(vp_fields, number), FIELD(vp_fields, lo), FIELD(vp_fields, hi);
    FIELD(vp_fields, p), FIELD(vp_fields, q), FIELD(vp_fields, mode), FIELD(vp_fields, words);
    HEAD(vp_counted), FIELD(vp_counted, count);
    HEAD(vp_found), FIELD(vp_found, fields);
    HEAD(vp_worked), FIELD(vp_worked, word), FIELD(vp_worked, steps), FIELD(vp_worked, exact);
    HEAD(vp_shown), FIELD(vp_shown, value), FIELD(vp_shown, steps), FIELD(vp_shown, exact);
    HEAD(vp_ends), FIELD(vp_ends, low), FIELD(vp_ends, high);
    HEAD(vp_written), FIELD(vp_written, length);
    return 0;
}
