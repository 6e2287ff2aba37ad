#include "rec.h"

#include <string.h>

/* ---- reading a text ---------------------------------------------------- */

struct reader {
    const uint8_t *text;
    size_t length;
    size_t at;
    size_t level;
    struct rec_tree *tree;
};

static bool is_digit(uint8_t byte)
{
    return byte >= '0' && byte <= '9';
}

static bool ended(const struct reader *r)
{
    return r->at == r->length;
}

static uint8_t take(struct reader *r)
{
    return r->text[r->at++];
}

/* The opening quote is taken already. */
static uint32_t skip_comment(struct reader *r)
{
    while (!ended(r)) {
        uint8_t byte = take(r);
        if (byte == '"')
            return 0;
        if (byte != 10 && (byte < 32 || byte > 126))
            return REC_STRAY_MARK;
    }
    return REC_UNFINISHED;
}

/* Skips what may stand between marks. */
static uint32_t skip(struct reader *r)
{
    while (!ended(r)) {
        uint8_t byte = r->text[r->at];
        uint32_t fault = 0;
        if (byte != 32 && byte != 10 && byte != '"')
            return 0;
        r->at++;
        if (byte == '"')
            fault = skip_comment(r);
        if (fault)
            return fault;
    }
    return 0;
}

/* Books the cells of a mark whose form is read. */
static uint32_t need(struct reader *r, size_t cells)
{
    if (r->tree->used + cells > REC_CELLS)
        return REC_TABLE_FULL;
    r->tree->used += (uint16_t)cells;
    return 0;
}

/* 1 to `most` digits, then the closer; any other byte is `fault`. */
static uint32_t read_number(struct reader *r, size_t most, uint8_t closer,
                            uint32_t fault, int32_t *value)
{
    size_t digits = 0;
    int32_t number = 0;
    while (!ended(r)) {
        uint8_t byte = take(r);
        if (byte == closer && digits > 0) {
            *value = number;
            return 0;
        }
        if (!is_digit(byte) || digits == most)
            return fault;
        number = number * 10 + (byte - '0');
        digits++;
    }
    return REC_UNFINISHED;
}

/* F or S is taken; its digit is due. */
static uint32_t read_digit(struct reader *r, struct rec_item *item)
{
    uint8_t byte;
    if (ended(r))
        return REC_UNFINISHED;
    byte = take(r);
    if (!is_digit(byte))
        return REC_STRAY_MARK;
    item->value = byte == '0' ? 10 : byte - '0';
    return need(r, 2);
}

static uint32_t read_counter(struct reader *r, struct rec_item *item)
{
    uint32_t fault = read_number(r, 4, '$', REC_BAD_COUNTER, &item->value);
    if (fault)
        return fault;
    if (item->value == 0)
        return REC_BAD_COUNTER;
    if (r->tree->counters == REC_COUNTERS)
        return REC_MANY_COUNTERS;
    item->kind = REC_COUNTER;
    item->order = (uint8_t)r->tree->counters++;
    return need(r, 4);
}

/* `'/` is taken. */
static uint32_t read_constant(struct reader *r, struct rec_item *item)
{
    bool minus = false;
    uint32_t fault;
    if (!ended(r) && r->text[r->at] == '-') {
        minus = true;
        r->at++;
    }
    fault = read_number(r, 9, '\'', REC_BAD_CONSTANT, &item->value);
    if (fault)
        return fault;
    if (minus)
        item->value = -item->value;
    item->kind = REC_CONSTANT;
    return need(r, 2);
}

/* `''` is taken. */
static uint32_t read_print(struct reader *r, struct rec_item *item)
{
    item->kind = REC_PRINT;
    item->start = (uint16_t)r->at;
    while (!ended(r)) {
        uint8_t byte = take(r);
        if (byte == '\'') {
            item->length = (uint16_t)(r->at - 1 - item->start);
            return need(r, 2 + (size_t)item->length);
        }
        if (byte < 32 || byte > 126)
            return REC_STRAY_MARK;
    }
    return REC_UNFINISHED;
}

/* The first `'` is taken. */
static uint32_t read_quoted(struct reader *r, struct rec_item *item)
{
    uint8_t byte;
    if (ended(r))
        return REC_UNFINISHED;
    byte = take(r);
    if (byte == '/')
        return read_constant(r, item);
    if (byte == '\'')
        return read_print(r, item);
    return REC_STRAY_MARK;
}

static uint32_t read_expression(struct reader *r, uint16_t *first);

static uint32_t read_inner(struct reader *r, struct rec_item *item)
{
    uint32_t fault;
    if (r->level == REC_LEVELS)
        return REC_DEEP;
    item->kind = REC_INNER;
    r->level++;
    fault = read_expression(r, &item->inner);
    r->level--;
    return fault;
}

/* One mark other than a separator or `)`; its first byte is taken. */
static uint32_t read_item(struct reader *r, uint8_t byte, struct rec_item *item)
{
    item->mark = byte;
    switch (byte) {
    case 'A': case 'L': case 'M': case 'P': case 'O': case 'X': case 'I':
    case '+': case '-': case '*': case '/':
        item->kind = REC_OPERATOR;
        return need(r, 1);
    case 'F':
        item->kind = REC_FETCH;
        return read_digit(r, item);
    case 'S':
        item->kind = REC_KEEP;
        return read_digit(r, item);
    case 'N': case '0': case 'J':
        item->kind = REC_PREDICATE;
        return need(r, 2);
    case '$':
        return read_counter(r, item);
    case '\'':
        return read_quoted(r, item);
    case '(':
        return read_inner(r, item);
    default:
        if (byte < 'a' || byte > 'z')
            return REC_STRAY_MARK;
        item->kind = REC_CALL;
        return need(r, 2);
    }
}

static uint16_t new_segment(struct rec_tree *tree)
{
    uint16_t made = tree->segment_count++;
    tree->segments[made].ender = ')';
    tree->segments[made].first = REC_NONE;
    tree->segments[made].last = REC_NONE;
    tree->segments[made].next = REC_NONE;
    return made;
}

static uint16_t new_item(struct rec_tree *tree, uint16_t segment)
{
    uint16_t made = tree->item_count++;
    struct rec_segment *s = &tree->segments[segment];
    memset(&tree->items[made], 0, sizeof tree->items[made]);
    tree->items[made].next = REC_NONE;
    if (s->last == REC_NONE)
        s->first = made;
    else
        tree->items[s->last].next = made;
    s->last = made;
    return made;
}

/* The expression's `(` is taken. */
static uint32_t read_expression(struct reader *r, uint16_t *first)
{
    struct rec_tree *tree = r->tree;
    uint16_t segment = new_segment(tree);
    *first = segment;
    for (;;) {
        uint8_t byte;
        uint32_t fault = skip(r);
        if (fault)
            return fault;
        if (ended(r))
            return REC_UNFINISHED;
        byte = take(r);
        if (byte == ')')
            return need(r, r->level == 1 ? 2 : 1);
        if (byte == ';' || byte == ',' || byte == ':' || byte == '.') {
            fault = need(r, 1);
            tree->segments[segment].ender = byte == ';' || byte == ',' ? ';' : ':';
            tree->segments[segment].next = new_segment(tree);
            segment = tree->segments[segment].next;
        } else {
            fault = read_item(r, byte, &tree->items[new_item(tree, segment)]);
        }
        if (fault)
            return fault;
    }
}

static uint32_t read_text(struct reader *r)
{
    uint32_t fault = skip(r);
    if (fault)
        return fault;
    if (ended(r))
        return REC_UNFINISHED;
    if (take(r) != '(')
        return REC_STRAY_MARK;
    r->level = 1;
    fault = read_expression(r, &r->tree->outermost);
    if (fault)
        return fault;
    fault = skip(r);
    if (fault)
        return fault;
    return ended(r) ? 0 : REC_STRAY_MARK;
}

uint32_t rec_read(const uint8_t *text, size_t length, struct rec_tree *tree)
{
    struct reader r = {text, length, 0, 0, tree};
    tree->item_count = 0;
    tree->segment_count = 0;
    tree->counters = 0;
    tree->used = 1;
    if (length > REC_TEXT)
        return REC_LONG_TEXT;
    if (length > 0)
        memcpy(tree->text, text, length);
    return read_text(&r);
}

/* ---- the code table ---------------------------------------------------- */

static size_t expression_cells(const struct rec_tree *tree, size_t first);

static size_t item_cells(const struct rec_tree *tree, const struct rec_item *item)
{
    switch (item->kind) {
    case REC_OPERATOR:
        return 1;
    case REC_COUNTER:
        return 4;
    case REC_PRINT:
        return 2 + (size_t)item->length;
    case REC_INNER:
        return expression_cells(tree, item->inner);
    default:
        return 2;
    }
}

/* The items of a segment and the cell of its ender. */
static size_t segment_cells(const struct rec_tree *tree, size_t segment)
{
    size_t cells = 1;
    size_t at = tree->segments[segment].first;
    while (at != REC_NONE) {
        cells += item_cells(tree, &tree->items[at]);
        at = tree->items[at].next;
    }
    return cells;
}

static size_t expression_cells(const struct rec_tree *tree, size_t first)
{
    size_t cells = 0;
    size_t segment = first;
    while (segment != REC_NONE) {
        cells += segment_cells(tree, segment);
        segment = tree->segments[segment].next;
    }
    return cells;
}

static void put(int32_t *cells, size_t cell, int32_t value)
{
    cells[cell - 1] = value;
}

static void lay_expression(const struct rec_tree *tree, size_t first, size_t cell,
                           int32_t closing, int32_t *cells);

static void lay_item(const struct rec_tree *tree, const struct rec_item *item,
                     size_t cell, int32_t on_false, int32_t *cells)
{
    switch (item->kind) {
    case REC_OPERATOR:
        put(cells, cell, -item->mark);
        break;
    case REC_FETCH:
    case REC_KEEP:
        put(cells, cell, -item->mark);
        put(cells, cell + 1, item->value);
        break;
    case REC_PREDICATE:
    case REC_CALL:
        put(cells, cell, -item->mark);
        put(cells, cell + 1, on_false);
        break;
    case REC_COUNTER:
        put(cells, cell, -36);
        put(cells, cell + 1, -item->value);
        put(cells, cell + 2, item->order);
        put(cells, cell + 3, on_false);
        break;
    case REC_CONSTANT:
        put(cells, cell, -175);
        put(cells, cell + 1, item->value);
        break;
    case REC_PRINT:
        put(cells, cell, -167);
        put(cells, cell + 1, item->length);
        for (size_t i = 0; i < item->length; i++)
            put(cells, cell + 2 + i, tree->text[item->start + i]);
        break;
    default:
        lay_expression(tree, item->inner, cell, on_false, cells);
        break;
    }
}

/* `closing` is what the expression's `)` cell holds. */
static void lay_expression(const struct rec_tree *tree, size_t first, size_t cell,
                           int32_t closing, int32_t *cells)
{
    size_t after = cell + expression_cells(tree, first);
    size_t start = cell;
    for (size_t s = first; s != REC_NONE; s = tree->segments[s].next) {
        const struct rec_segment *segment = &tree->segments[s];
        size_t end = start + segment_cells(tree, s);
        int32_t on_false = (int32_t)(segment->next == REC_NONE ? after : end);
        size_t at = start;
        for (size_t i = segment->first; i != REC_NONE; i = tree->items[i].next) {
            lay_item(tree, &tree->items[i], at, on_false, cells);
            at += item_cells(tree, &tree->items[i]);
        }
        if (segment->ender == ';')
            put(cells, at, (int32_t)after);
        else if (segment->ender == ':')
            put(cells, at, (int32_t)cell);
        else
            put(cells, at, closing);
        start = end;
    }
}

void rec_table(const struct rec_tree *tree, int32_t cells[REC_CELLS])
{
    memset(cells, 0, REC_CELLS * sizeof cells[0]);
    put(cells, 1, 2000);
    lay_expression(tree, tree->outermost, 2, 0, cells);
    put(cells, tree->used, 1);
}

/* ---- the clean print --------------------------------------------------- */

/* No mark grows in the copy, so it has room where the text had. */
struct copy {
    uint8_t bytes[REC_TEXT];
    size_t length;
};

static void copy_byte(struct copy *copy, uint8_t byte)
{
    copy->bytes[copy->length++] = byte;
}

static void copy_number(struct copy *copy, int32_t number)
{
    if (number >= 10)
        copy_number(copy, number / 10);
    copy_byte(copy, (uint8_t)('0' + number % 10));
}

static void copy_counter(struct copy *copy, int32_t n)
{
    copy_byte(copy, '$');
    copy_number(copy, n);
    copy_byte(copy, '$');
}

/* The value of minus zero is 0, so it has no minus. */
static void copy_constant(struct copy *copy, int32_t value)
{
    copy_byte(copy, '\'');
    copy_byte(copy, '/');
    if (value < 0)
        copy_byte(copy, '-');
    copy_number(copy, value < 0 ? -value : value);
    copy_byte(copy, '\'');
}

static void copy_print(struct copy *copy, const uint8_t *bytes, size_t length)
{
    copy_byte(copy, '\'');
    copy_byte(copy, '\'');
    for (size_t i = 0; i < length; i++)
        copy_byte(copy, bytes[i]);
    copy_byte(copy, '\'');
}

static void copy_expression(struct copy *copy, const struct rec_tree *tree,
                            size_t first);

static void copy_item(struct copy *copy, const struct rec_tree *tree,
                      const struct rec_item *item)
{
    switch (item->kind) {
    case REC_FETCH:
    case REC_KEEP:
        copy_byte(copy, item->mark);
        copy_byte(copy, (uint8_t)('0' + item->value % 10)); /* 10 is the digit 0 */
        break;
    case REC_COUNTER:
        copy_counter(copy, item->value);
        break;
    case REC_CONSTANT:
        copy_constant(copy, item->value);
        break;
    case REC_PRINT:
        copy_print(copy, tree->text + item->start, item->length);
        break;
    case REC_INNER:
        copy_expression(copy, tree, item->inner);
        break;
    default:
        copy_byte(copy, item->mark);
        break;
    }
}

/* The ender of the last segment is the `)`. */
static void copy_expression(struct copy *copy, const struct rec_tree *tree,
                            size_t first)
{
    copy_byte(copy, '(');
    for (size_t s = first; s != REC_NONE; s = tree->segments[s].next) {
        const struct rec_segment *segment = &tree->segments[s];
        for (size_t i = segment->first; i != REC_NONE; i = tree->items[i].next)
            copy_item(copy, tree, &tree->items[i]);
        copy_byte(copy, segment->ender);
    }
}

uint32_t rec_clean_print(const uint8_t *text, size_t length, uint8_t *paper,
                         size_t room, size_t *written)
{
    struct rec_tree tree;
    struct copy copy = {.length = 0};
    uint32_t fault = rec_read(text, length, &tree);
    *written = 0;
    if (fault)
        return fault;
    copy_expression(&copy, &tree, tree.outermost);
    if (copy.length > room)
        return REC_SHORT_PAPER;
    memcpy(paper, copy.bytes, copy.length);
    *written = copy.length;
    return 0;
}

/* ---- the nested meaning ------------------------------------------------ */

struct obeying {
    const struct rec_book *book;
    const struct rec_loan *loan;
    uint8_t role;
    uint32_t allowance;
    uint32_t steps;
    size_t height;
    size_t taken;
    size_t written;
    size_t calls;
    int32_t variables[REC_VARIABLES];
    int32_t trues[REC_LETTERS][REC_COUNTERS];
};

/* The expression or mark being obeyed stands in this letter's text. */
struct place {
    const struct rec_tree *tree;
    size_t letter;
};

static bool in_values(int64_t value)
{
    return value >= -REC_VALUE && value <= REC_VALUE;
}

static uint32_t push(struct obeying *o, int32_t value)
{
    if (o->height == REC_LIST)
        return REC_LIST_FULL;
    o->loan->list[o->height++] = value;
    return 0;
}

static uint32_t write_bytes(struct obeying *o, const uint8_t *bytes, size_t length)
{
    if (length > o->loan->output_length - o->written)
        return REC_PAPER_OUT;
    if (length > 0)
        memcpy(o->loan->output + o->written, bytes, length);
    o->written += length;
    return 0;
}

/* U6: "units, a point and two digits of cents, right-justified in 14 columns", set
 * from the right, digit by digit; the point comes after two of them and the units
 * have at least one. The longest is `-9999999.99`. */
static uint32_t write_value(struct obeying *o, int32_t value)
{
    uint8_t columns[REC_COLUMNS];
    size_t at = REC_COLUMNS;
    int32_t rest = value < 0 ? -value : value;
    memset(columns, ' ', sizeof columns);
    for (int digits = 0; digits <= REC_CENT_DIGITS || rest > 0; digits++) {
        if (digits == REC_CENT_DIGITS)
            columns[--at] = '.';
        columns[--at] = (uint8_t)('0' + rest % 10);
        rest /= 10;
    }
    if (value < 0)
        columns[--at] = '-';
    return write_bytes(o, columns, sizeof columns);
}

static uint32_t take_input(struct obeying *o)
{
    uint32_t stop;
    if (o->taken == o->loan->input_length)
        return REC_NO_INPUT;
    stop = push(o, o->loan->input[o->taken]);
    if (!stop)
        o->taken++;
    return stop;
}

/* Times the divisor, the order turns round where the divisor is below 0. */
static bool is_above_quotient(int64_t whole, int64_t amount, int64_t divisor)
{
    return divisor > 0 ? whole * divisor > amount : whole * divisor < amount;
}

/* U5: "`/` gives the greatest whole number not above the exact quotient", found by
 * halving. The divisor is not 0, so the quotient lies no further from 0 than the
 * amount does. For any two numbers of 32 bits the products are at most 2^62. */
static int64_t quotient_down(int64_t amount, int64_t divisor)
{
    int64_t size = amount < 0 ? -amount : amount;
    int64_t found = -size;   /* a whole number not above the quotient */
    int64_t over = size + 1; /* one above it */
    while (over - found > 1) {
        int64_t middle = found + (over - found) / 2;
        if (is_above_quotient(middle, amount, divisor))
            over = middle;
        else
            found = middle;
    }
    return found;
}

static uint32_t arithmetic(struct obeying *o, uint8_t mark)
{
    int64_t second, top, result;
    if (o->height < 2)
        return REC_LIST_EMPTY;
    second = o->loan->list[o->height - 2];
    top = o->loan->list[o->height - 1];
    if (mark == '/' && top == 0)
        return REC_ZERO_DIVISOR;
    if (mark == '+')
        result = second + top;
    else if (mark == '-')
        result = second - top;
    else if (mark == '*')
        result = second * top;
    else
        result = quotient_down(second, top);
    if (!in_values(result))
        return REC_RANGE;
    o->height--;
    o->loan->list[o->height - 1] = (int32_t)result;
    return 0;
}

static uint32_t obey_operator(struct obeying *o, uint8_t mark)
{
    int32_t *top;
    if (mark == 'X')
        return write_bytes(o, (const uint8_t *)"\n", 1);
    if (mark == 'I')
        return take_input(o);
    if (mark == '+' || mark == '-' || mark == '*' || mark == '/')
        return arithmetic(o, mark);
    if (o->height == 0)
        return REC_LIST_EMPTY;
    top = &o->loan->list[o->height - 1];
    switch (mark) {
    case 'A':
        if (*top < 0)
            *top = -*top;
        return 0;
    case 'M':
        *top = -*top;
        return 0;
    case 'L':
        o->height--;
        return 0;
    case 'P':
        return push(o, *top);
    default:
        return write_value(o, *top);
    }
}

static uint32_t obey_predicate(struct obeying *o, uint8_t mark, bool *truth)
{
    const int32_t *list = o->loan->list;
    if (o->height < (mark == 'J' ? 2u : 1u))
        return REC_LIST_EMPTY;
    if (mark == 'N')
        *truth = list[o->height - 1] < 0;
    else if (mark == '0')
        *truth = list[o->height - 1] == 0;
    else
        *truth = list[o->height - 1] == list[o->height - 2];
    return 0;
}

static void obey_counter(struct obeying *o, size_t letter,
                         const struct rec_item *item, bool *truth)
{
    int32_t *trues = &o->trues[letter][item->order];
    *truth = *trues < item->value;
    *trues = *truth ? *trues + 1 : 0;
}

static uint32_t keep_variable(struct obeying *o, int32_t k)
{
    if (o->height == 0)
        return REC_LIST_EMPTY;
    o->variables[k - 1] = o->loan->list[o->height - 1];
    return 0;
}

/* Every mark of an expression but inner expressions and calls. */
static uint32_t obey_mark(struct obeying *o, const struct place *place,
                          const struct rec_item *item, bool *truth)
{
    switch (item->kind) {
    case REC_OPERATOR:
        return obey_operator(o, item->mark);
    case REC_FETCH:
        return push(o, o->variables[item->value - 1]);
    case REC_KEEP:
        return keep_variable(o, item->value);
    case REC_PREDICATE:
        return obey_predicate(o, item->mark, truth);
    case REC_COUNTER:
        obey_counter(o, place->letter, item, truth);
        return 0;
    case REC_CONSTANT:
        return push(o, item->value);
    default:
        return write_bytes(o, place->tree->text + item->start, item->length);
    }
}

/* U7: "Some letters may be run only by a steward." */
static bool is_kept_from(uint8_t role, const struct rec_book *book, size_t letter)
{
    return role == REC_CASHIER && book->marks[letter] == REC_STEWARD_LETTER;
}

static uint32_t obey_expression(struct obeying *o, const struct place *place,
                                size_t first, bool *truth);

static uint32_t obey_call(struct obeying *o, uint8_t mark, bool *truth)
{
    size_t letter = (size_t)(mark - 'a');
    struct place place = {&o->book->texts[letter], letter};
    uint32_t stop;
    if (!o->book->standing[letter])
        return REC_NO_TEXT;
    if (is_kept_from(o->role, o->book, letter))
        return REC_STEWARD_CALL;
    if (o->calls == REC_CALLS)
        return REC_DEEP_CALLS;
    o->steps++;
    o->calls++;
    stop = obey_expression(o, &place, place.tree->outermost, truth);
    o->calls--;
    return stop;
}

static uint32_t obey_item(struct obeying *o, const struct place *place,
                          const struct rec_item *item, bool *truth)
{
    uint32_t stop;
    *truth = true;
    if (item->kind == REC_INNER)
        return obey_expression(o, place, item->inner, truth);
    if (o->steps == o->allowance)
        return REC_SPENT;
    if (item->kind == REC_CALL)
        return obey_call(o, item->mark, truth);
    stop = obey_mark(o, place, item, truth);
    if (!stop)
        o->steps++;
    return stop;
}

/* Obeys a segment's items; `through` tells that none of them was false. */
static uint32_t obey_segment(struct obeying *o, const struct place *place,
                             const struct rec_segment *segment, bool *through)
{
    *through = true;
    for (size_t i = segment->first; *through && i != REC_NONE;) {
        const struct rec_item *item = &place->tree->items[i];
        uint32_t stop = obey_item(o, place, item, through);
        if (stop)
            return stop;
        i = item->next;
    }
    return 0;
}

static uint32_t obey_expression(struct obeying *o, const struct place *place,
                                size_t first, bool *truth)
{
    size_t at = first;
    while (at != REC_NONE) {
        const struct rec_segment *segment = &place->tree->segments[at];
        bool through;
        uint32_t stop = obey_segment(o, place, segment, &through);
        if (stop)
            return stop;
        if (!through) {
            at = segment->next;
            continue;
        }
        if (o->steps == o->allowance)
            return REC_SPENT;
        o->steps++;
        if (segment->ender != ':') {
            *truth = segment->ender == ';';
            return 0;
        }
        at = first;
    }
    *truth = true; /* false in the last segment */
    return 0;
}

/* ---- the book ---------------------------------------------------------- */

static bool is_letter(uint8_t letter)
{
    return letter >= 'a' && letter <= 'z';
}

void rec_book_fresh(struct rec_book *book)
{
    memset(book, 0, sizeof *book);
}

uint32_t rec_book_define(struct rec_book *book, uint8_t letter, uint8_t mark,
                         const uint8_t *text, size_t length)
{
    struct rec_tree tree;
    uint32_t fault;
    if (!is_letter(letter))
        return REC_NO_SUCH_LETTER;
    if (mark != REC_OPEN && mark != REC_STEWARD_LETTER)
        return REC_BAD_MARK;
    fault = rec_read(text, length, &tree);
    if (fault)
        return fault;
    book->texts[letter - 'a'] = tree;
    book->marks[letter - 'a'] = mark;
    book->standing[letter - 'a'] = true;
    return 0;
}

uint32_t rec_book_withdraw(struct rec_book *book, uint8_t letter)
{
    if (!is_letter(letter))
        return REC_NO_SUCH_LETTER;
    if (!book->standing[letter - 'a'])
        return REC_NOT_STANDING;
    book->standing[letter - 'a'] = false;
    book->marks[letter - 'a'] = REC_OPEN;
    return 0;
}

static uint32_t refuse_run(const struct rec_book *book, uint8_t letter, uint8_t role,
                           const struct rec_loan *loan)
{
    if (!is_letter(letter))
        return REC_NO_SUCH_LETTER;
    if (role != REC_CASHIER && role != REC_STEWARD)
        return REC_BAD_MARK;
    if (!book->standing[letter - 'a'])
        return REC_NOT_STANDING;
    if (is_kept_from(role, book, (size_t)(letter - 'a')))
        return REC_NOT_FOR_CASHIERS;
    for (size_t i = 0; i < loan->input_length; i++)
        if (!in_values(loan->input[i]))
            return REC_BAD_INPUT;
    if (loan->list_length != REC_LIST)
        return REC_BAD_LIST;
    return 0;
}

struct rec_answer rec_book_run(struct rec_book *book, uint8_t letter, uint8_t role,
                               uint32_t allowance, const struct rec_loan *loan)
{
    struct rec_answer answer = {0, 0, 0, 0, 0, 0, REC_SOUND};
    struct obeying o = {
        .book = book, .loan = loan, .role = role, .allowance = allowance};
    struct place place;
    bool truth = false;
    answer.number = refuse_run(book, letter, role, loan);
    if (answer.number)
        return answer;
    place.letter = (size_t)(letter - 'a');
    place.tree = &book->texts[place.letter];
    memcpy(o.variables, book->variables, sizeof o.variables);
    answer.number = obey_expression(&o, &place, place.tree->outermost, &truth);
    if (answer.number == REC_FINISHED) {
        answer.truth = truth;
        memcpy(book->variables, o.variables, sizeof o.variables);
    }
    answer.steps = o.steps;
    answer.height = (uint32_t)o.height;
    answer.taken = (uint32_t)o.taken;
    answer.written = (uint32_t)o.written;
    for (size_t i = o.height; i < REC_LIST; i++)
        loan->list[i] = 0;
    return answer;
}

/* ---- the store and its table machine ----------------------------------- */

/* A cleared letter's mark counts too (U7). */
static bool store_is_bad(const size_t *used, const uint8_t *marks,
                         const int32_t *variables)
{
    for (size_t i = 0; i < REC_LETTERS; i++)
        if (used[i] != 0 && (used[i] < 3 || used[i] > REC_CELLS))
            return true;
    for (size_t i = 0; i < REC_LETTERS; i++)
        if (marks[i] > REC_STEWARD_LETTER)
            return true;
    for (size_t i = 0; i < REC_VARIABLES; i++)
        if (variables[i] < -REC_VALUE || variables[i] > REC_VALUE)
            return true;
    return false;
}

void rec_store_fresh(struct rec_store *store)
{
    memset(store, 0, sizeof *store);
}

uint32_t rec_store_define(struct rec_store *store, uint8_t letter, uint8_t mark,
                          const uint8_t *text, size_t length)
{
    struct rec_tree tree;
    uint32_t fault;
    if (store_is_bad(store->used, store->marks, store->variables))
        return REC_BAD_STORE;
    if (letter < 'a' || letter > 'z')
        return REC_NO_SUCH_LETTER;
    if (mark > REC_STEWARD_LETTER)
        return REC_BAD_MARK;
    fault = rec_read(text, length, &tree);
    if (fault)
        return fault;
    rec_table(&tree, store->cells + (size_t)(letter - 'a') * REC_CELLS);
    store->used[letter - 'a'] = tree.used;
    store->marks[letter - 'a'] = mark;
    return 0;
}

uint32_t rec_store_withdraw(struct rec_store *store, uint8_t letter)
{
    if (store_is_bad(store->used, store->marks, store->variables))
        return REC_BAD_STORE;
    if (letter < 'a' || letter > 'z')
        return REC_NO_SUCH_LETTER;
    if (store->used[letter - 'a'] == 0)
        return REC_NOT_STANDING;
    memset(store->cells + (size_t)(letter - 'a') * REC_CELLS, 0,
           REC_CELLS * sizeof store->cells[0]);
    store->used[letter - 'a'] = 0;
    store->marks[letter - 'a'] = REC_OPEN;
    return 0;
}

/* What stands at a cell, by its code. */
enum code {
    CODE_NONE,
    CODE_ALONE,   /* operator: one cell */
    CODE_DIGIT,   /* F, S */
    CODE_TEST,    /* predicate, call */
    CODE_COUNTER,
    CODE_CONSTANT,
    CODE_PRINT
};

static enum code code_of(int64_t held)
{
    int64_t code = -held;
    if (code == 175)
        return CODE_CONSTANT;
    if (code == 167)
        return CODE_PRINT;
    if (code == 36)
        return CODE_COUNTER;
    if (code <= 0 || code > 126)
        return CODE_NONE;
    if (strchr("ALMPOXI+-*/", (int)code))
        return CODE_ALONE;
    if (code == 'F' || code == 'S')
        return CODE_DIGIT;
    if (strchr("N0J", (int)code) || (code >= 'a' && code <= 'z'))
        return CODE_TEST;
    return CODE_NONE;
}

/* Cells of a mark, the bytes of a print not counted. */
static const int64_t fixed[] = {
    [CODE_NONE] = 1, [CODE_ALONE] = 1, [CODE_DIGIT] = 2, [CODE_TEST] = 2,
    [CODE_COUNTER] = 4, [CODE_CONSTANT] = 2, [CODE_PRINT] = 2};

/* One letter's table as the machine sees it. */
struct view {
    const int32_t *cells;
    int64_t used;
};

static int64_t cell(const struct view *v, int64_t number)
{
    return v->cells[number - 1];
}

static bool is_target(const struct view *v, int64_t value)
{
    return value >= 2 && value <= v->used;
}

static enum rec_clause print_damage(const struct view *v, int64_t at)
{
    int64_t length = cell(v, at + 1);
    if (length < 0)
        return REC_BAD_LENGTH;
    if (at + 1 + length > v->used - 2)
        return REC_MARK_TOO_LONG;
    for (int64_t i = 0; i < length; i++) {
        int64_t byte = cell(v, at + 2 + i);
        if (byte < 32 || byte > 126 || byte == 39)
            return REC_BAD_BYTE;
    }
    return REC_SOUND;
}

static enum rec_clause counter_damage(const struct view *v, int64_t at)
{
    int64_t n = -cell(v, at + 1);
    int64_t order = cell(v, at + 2);
    if (!is_target(v, cell(v, at + 3)))
        return REC_FALSE_OUTSIDE;
    if (n < 1 || n > 9999)
        return REC_BAD_N;
    if (order < 0 || order > 15)
        return REC_BAD_ORDER;
    return REC_SOUND;
}

static enum rec_clause mark_damage(const struct view *v, int64_t at)
{
    enum code code = code_of(cell(v, at));
    int64_t second;
    if (code == CODE_NONE)
        return REC_NO_CODE;
    if (at + fixed[code] - 1 > v->used - 2)
        return REC_MARK_TOO_LONG;
    if (code == CODE_PRINT)
        return print_damage(v, at);
    if (code == CODE_COUNTER)
        return counter_damage(v, at);
    if (code == CODE_ALONE)
        return REC_SOUND;
    second = cell(v, at + 1);
    if (code == CODE_DIGIT)
        return second >= 1 && second <= 10 ? REC_SOUND : REC_BAD_DIGIT;
    if (code == CODE_TEST)
        return is_target(v, second) ? REC_SOUND : REC_FALSE_OUTSIDE;
    return second >= -REC_VALUE && second <= REC_VALUE ? REC_SOUND : REC_BAD_VALUE;
}

/* Number 29 for the due cell, clause by clause. */
static enum rec_clause damage(const struct view *v, int64_t at)
{
    if (!is_target(v, at))
        return REC_CELL_OUTSIDE;
    if (at == v->used)
        return cell(v, at) == 1 ? REC_SOUND : REC_LAST_NOT_1;
    if (at == v->used - 1)
        return cell(v, at) == 0 ? REC_SOUND : REC_LAST_BUT_ONE_NOT_0;
    if (cell(v, at) == 0)
        return REC_HOLDS_0;
    if (cell(v, at) > 0)
        return is_target(v, cell(v, at)) ? REC_SOUND : REC_TRANSFER_OUTSIDE;
    return mark_damage(v, at);
}

struct frame {
    size_t letter;
    int64_t at; /* the due cell; for a caller, the cell of its call */
};

struct machine {
    const int32_t *cells;
    const size_t *used;
    const struct rec_loan *loan;
    uint32_t allowance;
    struct rec_answer answer;
    bool barred[REC_LETTERS]; /* letters this run may not call (U7) */
    int32_t variables[REC_VARIABLES];
    int64_t counts[REC_LETTERS * REC_COUNTERS];
    struct frame stack[REC_CALLS + 1];
    size_t depth; /* nested calls; the run's own letter stands at 0 */
    bool over;
};

static struct view view_of(const struct machine *m)
{
    size_t letter = m->stack[m->depth].letter;
    struct view v = {m->cells + letter * REC_CELLS, (int64_t)m->used[letter]};
    return v;
}

/* Leaves the innermost text with a truth: finish, or go on in the caller. */
static void leave(struct machine *m, bool truth)
{
    struct view v;
    struct frame *caller;
    if (m->depth == 0) {
        m->over = true;
        m->answer.truth = truth;
        return;
    }
    m->depth--;
    v = view_of(m);
    caller = &m->stack[m->depth];
    caller->at = truth ? caller->at + 2 : cell(&v, caller->at + 1);
}

/* The values a code needs on the list. */
static uint32_t wanted(int64_t code)
{
    switch (code) {
    case '+': case '-': case '*': case '/': case 'J':
        return 2;
    case 'A': case 'L': case 'M': case 'P': case 'O': case 'S': case 'N': case '0':
        return 1;
    default:
        return 0;
    }
}

/* How many values a code adds to the list. */
static uint32_t added(int64_t code)
{
    return code == 'P' || code == 'I' || code == 'F' || code == 175;
}

/* The bytes a code writes. */
static size_t paper(const struct view *v, int64_t at)
{
    int64_t code = -cell(v, at);
    if (code == 'O')
        return REC_COLUMNS;
    if (code == 'X')
        return 1;
    return code == 167 ? (size_t)cell(v, at + 1) : 0;
}

/* "Division now goes down" (U5). C drops the rest toward zero: that is one too high
 * where a rest is dropped from a quotient below 0. The top is not 0; both come from
 * the list, so 64 bits hold the quotient and one less. */
static int64_t divide(int64_t second, int64_t top)
{
    bool rest = second % top != 0;
    bool minus = (second < 0) != (top < 0);
    return second / top - (rest && minus);
}

static int64_t calculate(int64_t code, int64_t second, int64_t top)
{
    switch (code) {
    case '+':
        return second + top;
    case '-':
        return second - top;
    case '*':
        return second * top;
    default:
        return divide(second, top);
    }
}

/* The stop that fits the due mark, in the document's order, or 0. */
static uint32_t stop_of(const struct machine *m, const struct view *v, int64_t at)
{
    int64_t code = -cell(v, at);
    size_t height = m->answer.height;
    const int32_t *list = m->loan->list;
    if (code >= 'a' && code <= 'z') {
        if (m->used[code - 'a'] == 0)
            return REC_NO_TEXT;
        if (m->barred[code - 'a'])
            return REC_STEWARD_CALL;
        if (m->depth == REC_CALLS)
            return REC_DEEP_CALLS;
    }
    if (height < wanted(code))
        return REC_LIST_EMPTY;
    if (code == '/' && list[height - 1] == 0)
        return REC_ZERO_DIVISOR;
    if (code == '+' || code == '-' || code == '*') {
        int64_t result = calculate(code, list[height - 2], list[height - 1]);
        if (result < -REC_VALUE || result > REC_VALUE)
            return REC_RANGE;
    }
    if (code == 'I' && m->answer.taken == m->loan->input_length)
        return REC_NO_INPUT;
    if (height + added(code) > REC_LIST)
        return REC_LIST_FULL;
    if (m->answer.written + paper(v, at) > m->loan->output_length)
        return REC_PAPER_OUT;
    return 0;
}

static void add(struct machine *m, int64_t value)
{
    m->loan->list[m->answer.height] = (int32_t)value;
    m->answer.height++;
}

static int64_t drop(struct machine *m)
{
    int64_t value;
    m->answer.height--;
    value = m->loan->list[m->answer.height];
    m->loan->list[m->answer.height] = 0;
    return value;
}

static void type(struct machine *m, int64_t byte)
{
    m->loan->output[m->answer.written] = (uint8_t)byte;
    m->answer.written++;
}

/* U6's columns from the left: units and cents are split, the digits of the units are
 * found by powers of ten. The minus stands before the units, be they 0. */
static void type_value(struct machine *m, int64_t value)
{
    int64_t size = value < 0 ? -value : value;
    int64_t units = size / REC_UNIT;
    int64_t cents = size - units * REC_UNIT;
    int64_t power = 1;
    int columns = 1 + 1 + REC_CENT_DIGITS; /* a unit, the point, the cents */
    while (units / power >= 10) {
        power *= 10;
        columns++;
    }
    for (int i = columns + (value < 0); i < REC_COLUMNS; i++)
        type(m, ' ');
    if (value < 0)
        type(m, '-');
    for (; power > 0; power /= 10)
        type(m, '0' + units / power % 10);
    type(m, '.');
    type(m, '0' + cents / 10);
    type(m, '0' + cents % 10);
}

/* An operator, constant or print that no stop fits. */
static void operate(struct machine *m, const struct view *v, int64_t at)
{
    int64_t code = -cell(v, at);
    int64_t top;
    switch (code) {
    case 'A':
        top = drop(m);
        add(m, top < 0 ? -top : top);
        break;
    case 'M':
        add(m, -drop(m));
        break;
    case 'L':
        drop(m);
        break;
    case 'P':
        add(m, m->loan->list[m->answer.height - 1]);
        break;
    case 'O':
        type_value(m, m->loan->list[m->answer.height - 1]);
        break;
    case 'X':
        type(m, 10);
        break;
    case 'I':
        add(m, m->loan->input[m->answer.taken]);
        m->answer.taken++;
        break;
    case 'F':
        add(m, m->variables[cell(v, at + 1) - 1]);
        break;
    case 'S':
        m->variables[cell(v, at + 1) - 1] = m->loan->list[m->answer.height - 1];
        break;
    case 175:
        add(m, cell(v, at + 1));
        break;
    case 167:
        for (int64_t i = 0; i < cell(v, at + 1); i++)
            type(m, cell(v, at + 2 + i));
        break;
    default:
        top = drop(m);
        add(m, calculate(code, drop(m), top));
        break;
    }
}

static bool test(const struct machine *m, int64_t code)
{
    const int32_t *top = m->loan->list + m->answer.height - 1;
    if (code == 'N')
        return *top < 0;
    if (code == '0')
        return *top == 0;
    return top[0] == top[-1];
}

static bool count(struct machine *m, const struct view *v, int64_t at)
{
    size_t letter = m->stack[m->depth].letter;
    size_t order = (size_t)cell(v, at + 2);
    int64_t *counted = &m->counts[letter * REC_COUNTERS + order];
    if (*counted < -cell(v, at + 1)) {
        ++*counted;
        return true;
    }
    *counted = 0;
    return false;
}

/* Does the due mark and moves to the next due cell. */
static void do_mark(struct machine *m, const struct view *v)
{
    struct frame *frame = &m->stack[m->depth];
    int64_t at = frame->at;
    int64_t code = -cell(v, at);
    switch (code_of(cell(v, at))) {
    case CODE_COUNTER:
        frame->at = count(m, v, at) ? at + 4 : cell(v, at + 3);
        return;
    case CODE_TEST:
        if (code >= 'a' && code <= 'z') {
            m->depth++;
            m->stack[m->depth].letter = (size_t)(code - 'a');
            m->stack[m->depth].at = 2;
        } else {
            frame->at = test(m, code) ? at + 2 : cell(v, at + 1);
        }
        return;
    case CODE_ALONE:
        frame->at = at + 1;
        break;
    case CODE_PRINT:
        frame->at = at + 2 + cell(v, at + 1);
        break;
    default:
        frame->at = at + 2;
        break;
    }
    operate(m, v, at);
}

/* One due cell: returns the number that stops the run, or 0. */
static uint32_t advance(struct machine *m)
{
    struct view v = view_of(m);
    int64_t at = m->stack[m->depth].at;
    uint32_t stop = 0;
    m->answer.clause = damage(&v, at);
    if (m->answer.clause != REC_SOUND)
        return REC_DAMAGED;
    if (at == v.used) {
        leave(m, true);
        return 0;
    }
    if (m->answer.steps == m->allowance)
        return REC_SPENT;
    if (at == v.used - 1) {
        leave(m, false);
    } else if (cell(&v, at) > 0) {
        m->stack[m->depth].at = cell(&v, at);
    } else {
        stop = stop_of(m, &v, at);
        if (!stop)
            do_mark(m, &v);
    }
    if (!stop)
        m->answer.steps++;
    return stop;
}

/* A letter is barred to a role below its mark. */
static uint32_t refuse_store_run(const size_t *used, const uint8_t *marks,
                                 const int32_t *variables, uint8_t letter,
                                 uint8_t role, const struct rec_loan *loan)
{
    if (store_is_bad(used, marks, variables))
        return REC_BAD_STORE;
    if (letter < 'a' || letter > 'z')
        return REC_NO_SUCH_LETTER;
    if (role > REC_STEWARD)
        return REC_BAD_MARK;
    if (used[letter - 'a'] == 0)
        return REC_NOT_STANDING;
    if (role < marks[letter - 'a'])
        return REC_NOT_FOR_CASHIERS;
    for (size_t i = 0; i < loan->input_length; i++)
        if (loan->input[i] < -REC_VALUE || loan->input[i] > REC_VALUE)
            return REC_BAD_INPUT;
    return loan->list_length == REC_LIST ? 0 : REC_BAD_LIST;
}

struct rec_answer rec_store_run(const int32_t *cells, const size_t *used,
                                const uint8_t *marks, int32_t *variables,
                                uint8_t letter, uint8_t role, uint32_t allowance,
                                const struct rec_loan *loan)
{
    struct machine m = {
        .cells = cells, .used = used, .loan = loan, .allowance = allowance};
    uint32_t stop = refuse_store_run(used, marks, variables, letter, role, loan);
    if (stop) {
        m.answer.number = stop;
        return m.answer;
    }
    memset(loan->list, 0, REC_LIST * sizeof loan->list[0]);
    memcpy(m.variables, variables, sizeof m.variables);
    for (size_t i = 0; i < REC_LETTERS; i++)
        m.barred[i] = role < marks[i];
    m.stack[0].letter = (size_t)(letter - 'a');
    m.stack[0].at = 2;
    while (!stop && !m.over)
        stop = advance(&m);
    m.answer.number = stop;
    if (stop == REC_FINISHED)
        memcpy(variables, m.variables, sizeof m.variables);
    return m.answer;
}

/* ---- what a letter can reach ------------------------------------------- */

/* The cell after what stands at a sound cell; a transfer is one cell. */
static int64_t cell_after(const struct view *v, int64_t at)
{
    enum code code = code_of(cell(v, at));
    return at + fixed[code] + (code == CODE_PRINT ? cell(v, at + 1) : 0);
}

/* Reads a standing table mark after mark from cell 2 to its last cell, wherever its
 * falses and transfers lead, and notes the letters it calls. */
static enum rec_clause read_calls(const struct view *v, bool calls[REC_LETTERS])
{
    int64_t at = 2;
    while (at <= v->used) {
        enum rec_clause clause = damage(v, at);
        int64_t code;
        if (clause != REC_SOUND)
            return clause;
        code = -cell(v, at);
        if (code >= 'a' && code <= 'z')
            calls[code - 'a'] = true;
        at = cell_after(v, at);
    }
    return REC_SOUND;
}

/* Goes over the reached letters in the order in which they are found. */
static void follow(bool calls[REC_LETTERS][REC_LETTERS], size_t start,
                   uint8_t reached[REC_LETTERS])
{
    size_t found[REC_LETTERS] = {start};
    size_t count = 1;
    memset(reached, 0, REC_LETTERS);
    reached[start] = 1;
    for (size_t i = 0; i < count; i++)
        for (size_t to = 0; to < REC_LETTERS; to++)
            if (calls[found[i]][to] && !reached[to]) {
                reached[to] = 1;
                found[count++] = to;
            }
}

uint32_t rec_store_reach(const struct rec_store *store, uint8_t letter,
                         uint8_t reached[REC_LETTERS], uint8_t missing[REC_LETTERS])
{
    bool calls[REC_LETTERS][REC_LETTERS] = {{false}};
    if (store_is_bad(store->used, store->marks, store->variables))
        return REC_BAD_STORE;
    if (letter < 'a' || letter > 'z')
        return REC_NO_SUCH_LETTER;
    if (store->used[letter - 'a'] == 0)
        return REC_NOT_STANDING;
    for (size_t i = 0; i < REC_LETTERS; i++) {
        struct view v = {store->cells + i * REC_CELLS, (int64_t)store->used[i]};
        if (v.used > 0 && read_calls(&v, calls[i]) != REC_SOUND)
            return REC_DAMAGED;
    }
    follow(calls, (size_t)(letter - 'a'), reached);
    for (size_t i = 0; i < REC_LETTERS; i++)
        missing[i] = reached[i] && store->used[i] == 0;
    return 0;
}


/* ---- what a pool pays its winners -------------------------------------- */

/* The greatest multiple of 10 cents that, times the stakes, is not above the net,
 * found by halving. There is at least one stake. All products are below 10^19. */
static uint64_t greatest_dividend(uint64_t net, uint64_t stakes)
{
    uint64_t paid = 0;       /* a count of tens the net can pay */
    uint64_t over = net + 1; /* one it cannot */
    while (over - paid > 1) {
        uint64_t middle = paid + (over - paid) / 2;
        if (middle * REC_DIVIDEND_STEP * stakes > net)
            over = middle;
        else
            paid = middle;
    }
    return paid * REC_DIVIDEND_STEP;
}

uint32_t rec_win_dividend(uint32_t pool, uint32_t rate, uint32_t stakes,
                          struct rec_payout *payout)
{
    memset(payout, 0, sizeof *payout);
    if (pool > REC_POOL || rate > REC_RATE || stakes > REC_STAKES)
        return REC_BAD_POOL;
    if (stakes == 0)
        return REC_NO_WINNER;
    payout->takeout = (uint64_t)pool * rate / REC_WHOLE;
    payout->net = pool - payout->takeout;
    payout->dividend = greatest_dividend(payout->net, stakes);
    payout->payments = payout->dividend * stakes;
    payout->breakage = payout->net - payout->payments;
    return 0;
}
