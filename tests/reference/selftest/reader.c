/* The reader and its tables against a second reader, which goes byte by byte and links in
 * one pass by chains. */
#include "reader.h"

#include <stdio.h>
#include <string.h>

#include "../rec.h"
#include "check.h"

enum state { BEFORE, INSIDE, AFTER, COMMENT, DIGIT, COUNTER, QUOTE, CONSTANT, PRINT };

/* Cells that wait for the same number, linked through the table. */
struct level {
    int32_t start;
    int32_t falses; /* wait for the cell after the next separator */
    int32_t ends;   /* wait for the cell after the `)` cell */
};

struct linker {
    enum state state;
    enum state back; /* after a comment */
    struct level levels[11];
    int level;
    int32_t cells[REC_CELLS + 1]; /* cell n at index n */
    int32_t next;
    int counters;
    uint8_t mark;
    int digits;
    int32_t number;
    bool minus;
    int length;
    uint8_t bytes[REC_TEXT];
};

static bool link_cell(struct linker *k, int32_t value)
{
    if (k->next > REC_CELLS)
        return false;
    k->cells[k->next++] = value;
    return true;
}

/* Adds a cell to a chain: it holds the one added before. */
static bool chain(struct linker *k, int32_t *head)
{
    if (!link_cell(k, *head))
        return false;
    *head = k->next - 1;
    return true;
}

static void settle(struct linker *k, int32_t *head, int32_t value)
{
    while (*head) {
        int32_t after = k->cells[*head];
        k->cells[*head] = value;
        *head = after;
    }
}

static uint32_t full_unless(bool linked)
{
    return linked ? 0 : REC_TABLE_FULL;
}

static uint32_t close_level(struct linker *k)
{
    struct level *level = &k->levels[k->level];
    int32_t after = k->next + 1;
    if (k->level == 1) {
        if (!link_cell(k, 0) || !link_cell(k, 1))
            return REC_TABLE_FULL;
        k->state = AFTER;
    } else if (!chain(k, &k->levels[k->level - 1].falses)) {
        return REC_TABLE_FULL;
    }
    settle(k, &level->falses, after);
    settle(k, &level->ends, after);
    k->level--;
    return 0;
}

static void open_level(struct linker *k)
{
    k->level++;
    k->levels[k->level].start = k->next;
    k->levels[k->level].falses = 0;
    k->levels[k->level].ends = 0;
    k->state = INSIDE;
}

static uint32_t separate(struct linker *k, bool end)
{
    struct level *level = &k->levels[k->level];
    bool linked = end ? chain(k, &level->ends) : link_cell(k, level->start);
    if (linked)
        settle(k, &level->falses, k->next);
    return full_unless(linked);
}

static void begin(struct linker *k, enum state state, uint8_t mark)
{
    k->state = state;
    k->mark = mark;
    k->digits = 0;
    k->number = 0;
    k->minus = false;
    k->length = 0;
}

static uint32_t inside(struct linker *k, uint8_t byte)
{
    if (byte == '(') {
        if (k->level == 10)
            return REC_DEEP;
        open_level(k);
        return 0;
    }
    if (byte == ')')
        return close_level(k);
    if (byte == ';' || byte == ',')
        return separate(k, true);
    if (byte == ':' || byte == '.')
        return separate(k, false);
    if (byte == '$')
        begin(k, COUNTER, byte);
    else if (byte == '\'')
        begin(k, QUOTE, byte);
    else if (byte == 'F' || byte == 'S')
        begin(k, DIGIT, byte);
    else if (byte == 'N' || byte == '0' || byte == 'J' || (byte >= 'a' && byte <= 'z'))
        return full_unless(link_cell(k, -byte)
                           && chain(k, &k->levels[k->level].falses));
    else if (byte != 0 && strchr("ALMPOXI+-*/", byte))
        return full_unless(link_cell(k, -byte));
    else
        return REC_STRAY_MARK;
    return 0;
}

static uint32_t counter_byte(struct linker *k, uint8_t byte)
{
    if (byte >= '0' && byte <= '9' && k->digits < 4) {
        k->number = k->number * 10 + byte - '0';
        k->digits++;
        return 0;
    }
    if (byte != '$' || k->digits == 0 || k->number == 0)
        return REC_BAD_COUNTER;
    if (k->counters == 16)
        return REC_MANY_COUNTERS;
    k->state = INSIDE;
    return full_unless(link_cell(k, -36) && link_cell(k, -k->number)
                       && link_cell(k, k->counters++)
                       && chain(k, &k->levels[k->level].falses));
}

static uint32_t constant_byte(struct linker *k, uint8_t byte)
{
    if (byte == '-' && k->digits == 0 && !k->minus) {
        k->minus = true;
        return 0;
    }
    if (byte >= '0' && byte <= '9' && k->digits < 9) {
        k->number = k->number * 10 + byte - '0';
        k->digits++;
        return 0;
    }
    if (byte != '\'' || k->digits == 0)
        return REC_BAD_CONSTANT;
    k->state = INSIDE;
    return full_unless(link_cell(k, -175) && link_cell(k, k->minus ? -k->number : k->number));
}

static uint32_t print_byte(struct linker *k, uint8_t byte)
{
    bool linked;
    if (byte != '\'') {
        k->bytes[k->length++] = byte;
        return byte >= 32 && byte <= 126 ? 0 : REC_STRAY_MARK;
    }
    k->state = INSIDE;
    linked = link_cell(k, -167) && link_cell(k, k->length);
    for (int i = 0; i < k->length; i++)
        linked = linked && link_cell(k, k->bytes[i]);
    return full_unless(linked);
}

static uint32_t digit_byte(struct linker *k, uint8_t byte)
{
    if (byte < '0' || byte > '9')
        return REC_STRAY_MARK;
    k->state = INSIDE;
    return full_unless(link_cell(k, -k->mark)
                       && link_cell(k, byte == '0' ? 10 : byte - '0'));
}

static uint32_t link_byte(struct linker *k, uint8_t byte)
{
    switch (k->state) {
    case COMMENT:
        if (byte == '"')
            k->state = k->back;
        return byte == 10 || (byte >= 32 && byte <= 126) ? 0 : REC_STRAY_MARK;
    case COUNTER:
        return counter_byte(k, byte);
    case CONSTANT:
        return constant_byte(k, byte);
    case PRINT:
        return print_byte(k, byte);
    case DIGIT:
        return digit_byte(k, byte);
    case QUOTE:
        if (byte != '/' && byte != '\'')
            return REC_STRAY_MARK;
        begin(k, byte == '/' ? CONSTANT : PRINT, byte);
        return 0;
    default:
        break;
    }
    if (byte == ' ' || byte == 10)
        return 0;
    if (byte == '"') {
        k->back = k->state;
        k->state = COMMENT;
        return 0;
    }
    if (k->state == INSIDE)
        return inside(k, byte);
    if (k->state == AFTER || byte != '(')
        return REC_STRAY_MARK;
    open_level(k);
    return 0;
}

static uint32_t second_read(struct linker *k, const uint8_t *text, size_t length)
{
    memset(k, 0, sizeof *k);
    k->next = 1;
    link_cell(k, 2000);
    if (length > 256)
        return REC_LONG_TEXT;
    for (size_t i = 0; i < length; i++) {
        uint32_t fault = link_byte(k, text[i]);
        if (fault)
            return fault;
    }
    return k->state == AFTER ? 0 : REC_UNFINISHED;
}

/* ---- beside the reference's -------------------------------------------- */

uint32_t compare_readers(const uint8_t *text, size_t length)
{
    static struct linker k;
    struct rec_tree tree;
    int32_t cells[REC_CELLS];
    uint32_t one = rec_read(text, length, &tree);
    uint32_t two = second_read(&k, text, length);
    unsigned before = wrong;
    if (check(one == two, "readers differ", "") && one == 0) {
        rec_table(&tree, cells);
        check(tree.used == k.next - 1, "used counts differ", "");
        check(memcmp(cells, k.cells + 1, sizeof cells) == 0, "tables differ", "");
    }
    if (wrong > before)
        printf("  %u and %u, text %.*s\n", (unsigned)one, (unsigned)two, (int)length,
               (const char *)text);
    return one;
}
