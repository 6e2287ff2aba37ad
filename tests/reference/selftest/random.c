#include "random.h"

uint8_t random_mark(struct random *r)
{
    static const uint8_t strange[] = {2, 3, 127, 128, 254, 255};
    return chance(r, 93) ? chance(r, 40) : strange[below(r, 6)];
}

uint8_t any_letter(struct random *r)
{
    return (uint8_t)between(r, 'a', 'z');
}

void random_bytes(struct random *r, struct text *text)
{
    static const char marks[] = "((((((;:,.AFLIMNOPSXJ0123''//$$\"-+* aqz\n";
    int length = between(r, 0, chance(r, 90) ? 40 : 260);
    text_clear(text);
    while (length-- > 0)
        text_byte(text, chance(r, 97) ? (uint8_t)marks[below(r, sizeof marks - 1)]
                                      : (uint8_t)below(r, 256));
}

/* What looks like a call and is none, or parts calls, or nothing. */
static void no_call(struct random *r, struct text *text)
{
    static const char *const marks[] = {";", ":", ",", "X", "F1", "'/7'", "()", "$2$", " ", "0"};
    bool print = chance(r, 50);
    switch (below(r, 8)) {
    case 0: case 1:
        text_add(text, print ? "''" : "\"");
        for (int i = between(r, 0, 5); i > 0; i--)
            text_byte(text, any_letter(r));
        text_add(text, print ? "'" : "\"");
        break;
    case 2:
        text_add(text, chance(r, 80) ? "'/-" : "'/");
        text_number(text, any_letter(r));
        text_add(text, "'");
        break;
    case 3:
        text_add(text, "$");
        text_number(text, any_letter(r));
        text_add(text, "$");
        break;
    case 4: case 5:
        text_add(text, marks[below(r, sizeof marks / sizeof marks[0])]);
        break;
    default:
        break;
    }
}

void text_of_calls(struct random *r, const uint8_t *letters, size_t count, struct text *text)
{
    bool plain = chance(r, 20);
    text_clear(text);
    text_add(text, "(");
    for (size_t i = 0; i < count; i++) {
        bool inner = chance(r, 30);
        if (!plain)
            no_call(r, text);
        text_add(text, inner ? "(" : "");
        text_byte(text, letters[i]);
        text_add(text, !inner ? "" : chance(r, 50) ? ";)" : ")");
    }
    if (!plain)
        no_call(r, text);
    text_add(text, chance(r, 70) ? ";)" : ")");
}

int32_t random_cell(struct random *r, size_t used)
{
    static const int32_t edges[] = {
        0, 1, 2, 10, 11, 15, 16, 31, 32, 39, 126, 127, 250, 251, -1, -36, -167, -175, -9999,
        -10000, INT32_MAX, INT32_MIN};
    switch (below(r, 6)) {
    case 0:
        return (int32_t)used + between(r, -2, 2);
    case 1:
        return -between(r, 0, 180);
    case 2:
        return between(r, 0, 40);
    case 3:
        return between(r, REC_VALUE - 1, REC_VALUE + 3);
    case 4:
        return -between(r, REC_VALUE - 1, REC_VALUE + 3);
    default:
        return edges[below(r, sizeof edges / sizeof edges[0])];
    }
}

void spoil_store(struct random *r, struct rec_store *store)
{
    static const size_t counts[] = {0, 1, 2, 3, 250, 251, SIZE_MAX};
    size_t letter = below(r, REC_LETTERS);
    size_t used = store->used[letter];
    uint32_t pick = below(r, 100);
    if (pick < 3)
        store->used[letter] = counts[below(r, 7)];
    else if (pick < 5)
        store->variables[below(r, REC_VARIABLES)] = random_cell(r, 250);
    else if (pick < 8)
        store->marks[letter] = random_mark(r);
    else if (used < 3 || used > REC_CELLS)
        return;
    else if (pick < 13)
        store->used[letter] = used + below(r, 5) - 2;
    else
        store->cells[letter * REC_CELLS + (size_t)between(r, 1, (int32_t)used - 1)]
            = random_cell(r, used);
}
