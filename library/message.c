/* The words for each refusal: what is wrong, then what to do. The command prints them from here; include/valvepigeon.h and
   README.md say the same, which tests/words.sh checks. This is C, an object of its own in the archive, and nothing proves it. */
#include "valvepigeon.h"

/* What becomes of damaged bytes can look like a formula that was typed wrongly. */
#define DAMAGED " Where the sheet was good before, its bytes are damaged, as by a tail that became zeros: fetch the file again."

static const char *const messages[] = {
    [0] = "nothing was refused.",
    [VP_CUT_SHORT] = "the bytes stop before a record does. "
                     "The file was cut short: fetch it or write it again.",
    [VP_WRONG_LENGTH] = "a length is below 8, above 120, or not that of its kind and counts, or a count of coefficients or a depth "
                        "is outside its range. "
                        "Zeros or other bytes stand in a record's place: fetch the file again; in a formula of your own, "
                        "correct the counts.",
    [VP_WRONG_KIND] = "the kind is unknown, a start or formula record is out of place, or a writer is given what is no formula. "
                      "This is no formula sheet, or one of a newer make; a writer takes formulas alone." DAMAGED,
    [VP_WRONG_COUNT] = "the start's count is not 1 to 64, there is a formula too many, the end comes after too few or has another "
                       "count, or a run is empty. "
                       "Put the sheet together again with the sheet writer." DAMAGED,
    [VP_NUMBER_NOT_ABOVE] = "a formula's number is not above the one before. "
                            "Sort the formulas by number, and give each its own." DAMAGED,
    [VP_WRONG_VALUE] = "a stored value is no word, lo is above hi, the mode is above 2, or a root's lo is below 0. "
                       "Compare the formula with its source, and type it again." DAMAGED,
    [VP_RANGE_LEFT] = "the word range may be left on the way to an answer. "
                      "Narrow the interval, or scale the formula down." DAMAGED,
    [VP_DIVISOR_ZERO] = "the divisor may reach 0. "
                        "Narrow the interval, or correct the divisor." DAMAGED,
    [VP_BYTES_AFTER_END] = "there are bytes after the end record. "
                           "Two files were joined, or a longer one was overwritten: fetch the file again.",
    [VP_ARGUMENT_OUTSIDE] = "the argument lies outside the interval lo..hi, to which both ends belong. "
                            "Ask inside it; a listing of the sheet shows it.",
    [VP_NO_SUCH_FORMULA] = "no formula has that number. "
                           "List the sheet to see its numbers.",
    [VP_BUFFER_TOO_SHORT] = "the output buffer is too short. "
                            "Lend more: a record takes at most 120 bytes, a sheet 16 more than its run.",
    [VP_NOT_FINITE] = "the double is infinite or not a number. "
                      "Look where it comes from.",
    [VP_BLANK_FORMULA] = "the formula is blank and could only answer 0: its coefficients, a rational's numerator, or a fraction's b0 and "
                         "a1 are all 0. "
                         "Load no board from this file: zeros stand where coefficients should be, as when a disk fills up or part of a "
                         "file is lost. Fetch it again; in a formula of your own, give coefficients that are not all 0.",
    [VP_NO_SINE] = "the formula is not of the kind odd, or its interval does not hold 0 to one. "
                   "Ask an odd formula whose interval holds the words 0 to 16777216; a listing of the sheet shows both.",
};

const char *vp_message(uint32_t refused) {
    if (refused < sizeof messages / sizeof messages[0] && messages[refused]) return messages[refused];
    return "this library has no such refusal. A newer one gave it: ask that one for its message.";
}
