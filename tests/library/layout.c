/* Holds the types of rec.h to the layout that the archive has, and the version to its parts. Then prints the word of each number from -1 to 60. */
#include <rec.h>
#include <string.h>
#include "holds.h"

static void layout(void) {
    HOLDS(sizeof(rec_store) == 26352);
    HOLDS(offsetof(rec_store, cells) == 0);
    HOLDS(offsetof(rec_store, used) == 26000);
    HOLDS(offsetof(rec_store, marks) == 26208);
    HOLDS(offsetof(rec_store, vars) == 26312);
    HOLDS(sizeof(((rec_store *)0)->cells) == 4 * 26 * 250);
    HOLDS(sizeof(((rec_store *)0)->used) == 8 * 26);
    HOLDS(sizeof(((rec_store *)0)->marks) == 4 * 26);
    HOLDS(sizeof(((rec_store *)0)->vars) == 4 * 10);
    HOLDS(sizeof(rec_store) == 4 * 26 * 250 + 8 * 26 + 4 * 26 + 4 * 10); /* no padding */
    HOLDS(sizeof(rec_report) == 40);
    HOLDS(sizeof(rec_dividend_report) == 40);
}

static void version(void) {
    char parts[24];
    snprintf(parts, sizeof parts, "%d.%d", REC_VERSION_MAJOR, REC_VERSION_MINOR);
    HOLDS(strcmp(parts, REC_VERSION) == 0);
}

int main(void) {
    layout();
    version();
    for (int32_t number = -1; number <= 60; number++) printf("%d %s\n", (int)number, rec_word(number));
    return broken > 0;
}
