/* From a typed formula to a sheet and its answers. The formula is 1 + x + x^2/2 on [-1, 1], with the number 7; a one is 2^24.
   The sheet is written to the file that is named. */
#include <stdio.h>
#include "valvepigeon.h"

enum { ONE = 16777216, NUMBER = 7 };

static uint8_t record[VP_LONGEST_RECORD], sheet[VP_LONGEST_RECORD + VP_SHEET_ADDS];

static int refused(const char *what, uint32_t number, uint64_t place) {
    if (number) printf("%s: refused %u at %lu\n", what, number, (unsigned long)place);
    return number != 0;
}

int main(int count, char **words) {
    if (count != 2) return 2;

    vp_fields formula = {VP_POLYNOMIAL, NUMBER, -ONE, ONE, 3, 0, 0, {ONE, ONE, ONE / 2}};
    vp_written typed = vp_write_record(formula, record, sizeof record);
    if (refused("record", typed.refused, typed.place)) return 1;
    vp_written whole = vp_write_sheet(record, typed.length, sheet, sizeof sheet);
    if (refused("sheet", whole.refused, whole.place)) return 1;

    FILE *file = fopen(words[1], "wb");
    if (!file || fwrite(sheet, 1, whole.length, file) != whole.length || fclose(file)) return 1;

    vp_worked word = vp_evaluate(sheet, whole.length, NUMBER, ONE / 2);
    if (!refused("word", word.refused, word.place)) printf("at the word %d: %d\n", ONE / 2, word.word);
    vp_shown inside = vp_evaluate_double(sheet, whole.length, NUMBER, 0.5);
    if (!refused("double", inside.refused, inside.place)) printf("at 0.5: %.3f\n", inside.value);
    vp_shown outside = vp_evaluate_double(sheet, whole.length, NUMBER, 1.5);
    if (!refused("at 1.5", outside.refused, outside.place)) printf("at 1.5: %.3f\n", outside.value);
    return 0;
}
