/* `sine` and `cosine`: those of angles by a formula of a sheet, a line for each angle. */
#include "angle.h"
#include "question.h"
#include "verbs.h"

/* The library's sine or cosine. */
typedef vp_worked function(const uint8_t *sheet, size_t length, uint16_t number, uint32_t angle);

static int angles_understood(const question *q) {
    uint32_t angle;
    int exact;
    if (q->count == FIRST_ARGUMENT) return missing(q, "ANGLE");
    for (int i = FIRST_ARGUMENT; i < q->count; i++)
        if (!angle_from(q->words[i], &angle, &exact))
            return wrong(q, q->words[i], "is no angle: write degrees as 30deg, turns as 0.125t, or parts of a turn, "
                                         "0 to 4294967295, as 1073741824 or 0x40000000");
    return 1;
}

static int answer_all(const char *verb, function *of, int count, char **words) {
    static sheet_file sheet;
    question q;
    if (!understood(&q, verb, WORDS | EXACT, count, words) || !angles_understood(&q)) return 2;
    read_sheet(&sheet, q.words[0]);
    if (sheet.reading != READ) return unread(&q, &sheet);
    for (int i = FIRST_ARGUMENT; i < q.count; i++) {
        uint32_t angle;
        int exact;
        angle_from(q.words[i], &angle, &exact);
        /* No refusal is for the angle: the first is told, and would be that of all. */
        if (answered(&q, NULL, exact, of(sheet.bytes, sheet.length, q.number, angle))) return 1;
    }
    return 0;
}

int sine(int count, char **words) { return answer_all("sine", vp_sine, count, words); }
int cosine(int count, char **words) { return answer_all("cosine", vp_cosine, count, words); }
