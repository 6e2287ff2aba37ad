/* All short texts over a small set of bytes: both readers, both clean prints, both
 * accounts of reach, and a run side by side. */
#include <stdio.h>

#include "../../differential/texts.h"
#include "fair_copy.h"
#include "reach_accounts.h"
#include "runs.h"
#include "subjects.h"

/* All texts that go on from this one by up to `more` bytes. */
static unsigned short_texts(struct text *text, int more)
{
    static const uint8_t bytes[] = "();:'/$01-FN\"a ";
    static struct both b;
    unsigned accepted = 0;
    if (compare_accounts(text->bytes, text->length) == 0) {
        struct ways w;
        both_define(&b, 'a', text->bytes, text->length);
        ways_of_texts(&b, &w);
        compare_reach(&b.store, &w, 'a', "short text");
        both_run(&b, 'a', 25, NULL, 0, REC_LIST, 20);
        accepted++;
    }
    for (size_t i = 0; more > 0 && i < sizeof bytes - 1; i++) {
        text_byte(text, bytes[i]);
        accepted += short_texts(text, more - 1);
        text->length--;
    }
    return accepted;
}

void all_short_texts(void)
{
    static const char *const starts[] = {"", "(", "('/1'", "($1$("};
    struct text text;
    unsigned accepted = 0;
    for (size_t i = 0; i < 4; i++) {
        text_clear(&text);
        text_add(&text, starts[i]);
        accepted += short_texts(&text, i == 1 ? 5 : 4);
    }
    printf("short texts: %u accepted and run\n", accepted);
}
