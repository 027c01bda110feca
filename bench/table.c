#include "table.h"

#define BIT(tag) (1u << (tag))

/* The second words of the items that a date section may have: the least, and how many there are. The other items have none. */
static const struct {
    uint32_t least, count;
} date_arguments[HALF_DAY + 1] = {
    [LITERAL] = {0, 65536},
    [BLANK] = {0, 65536},
    [FILL] = {0, 65536},
    [YEAR] = {2, 3},
    [MONTH] = {1, 5},
    [DAY] = {1, 4},
    [HOUR] = {1, 2},
    [MINUTE] = {1, 2},
    [SECOND] = {1, 2},
    [PART] = {1, 3},
    [ELAPSED_HOURS] = {1, 9},
    [ELAPSED_MINUTES] = {1, 9},
    [ELAPSED_SECONDS] = {1, 9},
    [HALF_DAY] = {1, 2},
};

enum {
    ELAPSED = BIT(ELAPSED_HOURS) | BIT(ELAPSED_MINUTES) | BIT(ELAPSED_SECONDS),
    RUNS = BIT(YEAR) | BIT(MONTH) | BIT(DAY) | BIT(HOUR) | BIT(MINUTE) | BIT(SECOND) | ELAPSED,
    HOURS = BIT(HOUR) | BIT(ELAPSED_HOURS),
    SECONDS = BIT(SECOND) | BIT(ELAPSED_SECONDS),
    /* an elapsed tag less its plain equivalent */
    TO_PLAIN = ELAPSED_HOURS - HOUR
};

static bool condition_fits(const uint16_t *head)
{
    uint32_t whole = condition_number(head + WHOLE), millionths = condition_number(head + MILLIONTHS);

    if (head[OPERATOR] == 0)
        return (head[NEGATIVE] | whole | millionths) == 0;
    return head[OPERATOR] <= 6 && whole <= 999999999 && millionths <= 999999 &&
           (head[NEGATIVE] == 0 || (head[NEGATIVE] == 1 && (whole | millionths) != 0));
}

/* Where sections may stand. */
static bool stands(const uint16_t *head, unsigned section, unsigned count)
{
    bool conditioned = head[OPERATOR] != 0;

    if (head[KIND] == TEXT_KIND && (section + 1 != count || conditioned))
        return false;
    if (conditioned && (section >= 2 || (count == 1 && head[KIND] != GENERAL_KIND)))
        return false;
    return section < 3 || (head[KIND] != NUMBER_KIND && head[KIND] != DATE_KIND && head[COLOUR] == 0);
}

/* How often `mark` stands among literals, blanks and at most one fill; -1 where they are not such. */
static int marks_among(const uint16_t *item, const uint16_t *end, unsigned mark)
{
    int marks = 0, fills = 0;

    for (; item < end; item += ITEM_WORDS)
        if (item[0] == mark && item[1] == 0)
            marks++;
        else if (item[0] == FILL)
            fills++;
        else if (item[0] != LITERAL && item[0] != BLANK)
            return -1;
    return fills <= 1 ? marks : -1;
}

/* What a walk over the items of a number section finds. Places are told by their second word. */
typedef struct {
    int first, next; /* the first place, -1 before it; what the next one must be */
    int percents, fills, points;
} number_items;

static bool take_number_item(number_items *found, unsigned tag, int argument)
{
    switch (tag) {
    case LITERAL:
    case BLANK:
        return true;
    case FILL:
        return found->fills++ == 0;
    case ZERO_PLACE:
    case HASH_PLACE:
    case QUESTION_PLACE:
        if (found->first < 0)
            found->first = found->next = found->points ? POWER_NOUGHT - 1 : argument;
        return argument == found->next--;
    case POINT:
        return argument == 0 && found->points++ == 0 && (found->first < 0 || found->next == POWER_NOUGHT - 1);
    case PERCENT:
        return argument == 0 && found->percents++ < 5;
    default:
        return false;
    }
}

/* The shift tells 0 to 5 dividing commas. */
static bool shift_fits(int shift, int percents)
{
    int taken = 15 + 2 * percents - shift;

    return taken >= 0 && taken <= 15 && taken % 3 == 0;
}

static bool number_fits(const uint16_t *head, const uint16_t *item, const uint16_t *end, unsigned no_minus)
{
    number_items found = {-1, 0, 0, 0, 0};

    for (; item < end; item += ITEM_WORDS)
        if (!take_number_item(&found, item[0], item[1]))
            return false;
    if (found.first < 0 || found.first > POWER_MOST || (found.points == 0 && found.next != POWER_NOUGHT - 1))
        return false;
    return found.next >= 0 && head[DECIMALS] == POWER_NOUGHT - 1 - found.next &&
           (head[FLAGS] == no_minus || (head[FLAGS] == (no_minus | GROUPING) && found.first > POWER_NOUGHT)) &&
           shift_fits(head[SHIFT], found.percents);
}

/* Whether an item may stand behind the run and the item before it, which are bits, as `seen` is. */
static bool date_item_fits(unsigned tag, unsigned argument, unsigned seen, unsigned run, unsigned before)
{
    if (tag > HALF_DAY || argument - date_arguments[tag].least >= date_arguments[tag].count)
        return false;
    switch (tag) {
    case FILL:
    case ELAPSED_HOURS:
    case ELAPSED_MINUTES:
    case ELAPSED_SECONDS:
        return (seen & BIT(tag)) == 0;
    case YEAR:
        return argument != 3;
    case MONTH:
        return argument > 2 || (run & HOURS) == 0;
    case PART:
        return (before & SECONDS) != 0;
    default:
        return true;
    }
}

/* The bit of an m of 1 or 2 that no hours before it make minutes: the next run tells whether it is right. 0 for other runs. */
static unsigned waits(unsigned tag, unsigned argument, unsigned run)
{
    bool is_short = tag == MINUTE || (tag == MONTH && argument <= 2);

    return is_short && (run & HOURS) == 0 ? BIT(tag) : 0;
}

/* Minutes stand before seconds, a month does not. */
static bool answers(unsigned waiting, unsigned run)
{
    return waiting == 0 || (waiting == BIT(MINUTE)) == ((run & SECONDS) != 0);
}

static bool date_fits(const uint16_t *head, const uint16_t *item, const uint16_t *end, unsigned no_minus)
{
    unsigned seen = 0, run = 0, before = 0, waiting = 0, elapsed;

    for (; item < end; item += ITEM_WORDS) {
        if (!date_item_fits(item[0], item[1], seen, run, before))
            return false;
        before = BIT(item[0]);
        seen |= before;
        if (before & RUNS) {
            if (!answers(waiting, before))
                return false;
            waiting = waits(item[0], item[1], run);
            run = before;
        }
    }
    elapsed = seen & ELAPSED;
    return (seen & RUNS) != 0 && waiting != BIT(MINUTE) && (elapsed & (elapsed - 1)) == 0 && (elapsed >> TO_PLAIN & seen) == 0 &&
           head[FLAGS] == (no_minus | (seen & BIT(HALF_DAY) ? TWELVE_HOUR : 0)) &&
           (head[SHIFT] | head[DECIMALS]) == 0;
}

/* The items give the kind; a literal section has no mark of its own. */
static bool items_fit(const uint16_t *head, const uint16_t *item, unsigned no_minus)
{
    const uint16_t *end = item + ITEM_WORDS * head[ITEMS];
    bool bare = head[FLAGS] == no_minus && (head[SHIFT] | head[DECIMALS]) == 0;

    switch (head[KIND]) {
    case LITERAL_KIND:
        return bare && marks_among(item, end, LITERAL) >= 0;
    case GENERAL_KIND:
        return bare && marks_among(item, end, GENERAL) == 1;
    case NUMBER_KIND:
        return number_fits(head, item, end, no_minus);
    case TEXT_KIND:
        return bare && marks_among(item, end, AT) > 0;
    case DATE_KIND:
        return date_fits(head, item, end, no_minus);
    default:
        return false;
    }
}

/* Exception (a): the second section without a condition of its own, of three, or of two where the first has none. */
static unsigned no_minus_flag(const uint16_t *table, unsigned section, unsigned counted)
{
    if (section != 1 || head_of(table, 1)[OPERATOR] != 0 || counted < 2)
        return 0;
    return counted == 3 || head_of(table, 0)[OPERATOR] == 0 ? NO_MINUS : 0;
}

static bool head_fits(const uint16_t *head, unsigned section, unsigned count)
{
    return head[COLOUR] <= 56 && condition_fits(head) && stands(head, section, count);
}

bool table_passes(const uint16_t *table, size_t len)
{
    unsigned count, section, counted;
    size_t left;

    if (len == 0 || table[0] == 0 || table[0] > SECTIONS_MOST || len < 1u + HEAD_WORDS * table[0])
        return false;
    count = table[0];
    left = len - 1 - HEAD_WORDS * count;
    if (left > ITEM_WORDS * ITEMS_MOST)
        return false;
    counted = counted_sections(table);
    for (section = 0; section < count; section++) {
        const uint16_t *head = head_of(table, section);

        if (left < ITEM_WORDS * (size_t)head[ITEMS] || !head_fits(head, section, count) ||
            !items_fit(head, table + len - left, no_minus_flag(table, section, counted)))
            return false;
        left -= ITEM_WORDS * head[ITEMS];
    }
    return left == 0;
}
