/*
 * place.c: where in a journal a refusal is, and its sentence. The lines are looked at in the order in which the library looks at them, up
 * to the first thing that is wrong.
 */
#include "place.h"

#include "fabric.h"
#include "grammar.h"
#include "value.h"

#include <stdarg.h>
#include <stdio.h>
#include <string.h>

/* The sentences of the numbers. */
static const struct {
    uint32_t number;
    const char *sentence;
} sentences[] = {
    { FABRIC_JOURNAL_SIZES, "outside the limits" },
    { FABRIC_JOURNAL_LINE, "a line of over 200 bytes, or a last line without newline" },
    { FABRIC_JOURNAL_NO_FORM, "not a line of the journal's form" },
    { FABRIC_JOURNAL_WRONG_NUMBER, "not a number" },
    { FABRIC_JOURNAL_WRONG_DATA, "not data" },
    { FABRIC_JOURNAL_TOO_LONG, "over 65536 bytes" },
    { FABRIC_JOURNAL_UNLIKE, "not to be said in fabric=1" },
};

/* Of each use: the forms of the journals, and its name. */
static const struct {
    unsigned forms;
    const char *name;
} uses[] = {
    [PLAY] = { EVERY_FORM, NULL },
    [CONVERT_TO_1] = { FORM_2, "to1" },
    [CONVERT_TO_2] = { FORM_1, "to2" },
};

/* A search for the place. */
struct search {
    const struct refusal *refusal;
    struct place *place;
    unsigned forms;       /* that the journal may have; once its first line is read, the one that it has */
    struct line first;    /* the first line, */
    struct reading sizes; /* and what it says */
    size_t listed;        /* where the listing's next line is */
};

/* The sentence of a number. */
static const char *sentence_of(uint32_t number)
{
    for (size_t i = 0; i < sizeof sentences / sizeof *sentences; i++)
        if (sentences[i].number == number)
            return sentences[i].sentence;
    return "refused";
}

/* Says that a number is at an offset of a line, and why. Returns 1: something is wrong. */
__attribute__((format(printf, 5, 6)))
static int wrong(struct search *search, uint32_t number, const struct line *line, size_t offset, const char *why, ...)
{
    va_list values;
    search->place->number = number;
    search->place->line = line->number;
    search->place->column = offset + 1;
    va_start(values, why);
    vsnprintf(search->place->sentence, SENTENCE_ROOM, why, values);
    va_end(values);
    return 1;
}

/* Says that a line is none that may be there: 11. Returns 1. */
__attribute__((format(printf, 4, 5)))
static int no_form(struct search *search, const struct line *line, size_t offset, const char *why, ...)
{
    char *sentence = search->place->sentence;
    size_t size;
    va_list values;
    wrong(search, FABRIC_JOURNAL_NO_FORM, line, offset, "not a %s line: ", line->number == 1 ? "first" : "step");
    size = strlen(sentence);
    va_start(values, why);
    vsnprintf(sentence + size, SENTENCE_ROOM - size, why, values);
    va_end(values);
    return 1;
}

/* Whether a line is too long, or has no newline after it: 10. */
static int wrong_length(struct search *search, const struct line *line)
{
    if (line->size > FABRIC_MOST_LINE)
        return wrong(search, FABRIC_JOURNAL_LINE, line, FABRIC_MOST_LINE, "a line of over %d bytes", FABRIC_MOST_LINE);
    if (!line->ended)
        return wrong(search, FABRIC_JOURNAL_LINE, line, line->size, "a last line without newline");
    return 0;
}

/* Whether a line starts with a mark of its encoding, as files of Windows do. */
static int has_mark(const struct line *line)
{
    return common("\xef\xbb\xbf", line, 0) == 3 || common("\xff\xfe", line, 0) == 2 || common("\xfe\xff", line, 0) == 2;
}

/* Says of a line whose first word is that of no row what is wrong with it. Returns 1. */
static int unknown_word(struct search *search, const struct line *line)
{
    const char *start = line->number == 1 ? FIRST_START : STEP_START;
    size_t same = common(start, line, 0), kind = value_end(line, same) - same;
    char text[WHY_ROOM];
    if (line->size == 0)
        return no_form(search, line, 0, "empty line");
    if (line->size == 1 && line->bytes[0] == '\r')
        return no_form(search, line, 0, "empty line, but for a carriage return");
    if (line->bytes[0] == ' ')
        return no_form(search, line, 0, "blank at its start");
    if (has_mark(line))
        return no_form(search, line, 0, "byte order mark at its start");
    if (line->number == 1)
        return no_form(search, line, same, "%s expected", forms_in_words(search->forms, text, sizeof text));
    if (start[same] != '\0')
        return no_form(search, line, same, "%s expected", start);
    if (kind == 0)
        return no_form(search, line, same, "no step after %s", start);
    return no_form(search, line, same, "unknown step %s", quoted(line->bytes + same, kind, text));
}

/* Whether a line of a row stands where no such line may: a step before the first line, a first line after it, or one of another form. */
static int wrong_row(struct search *search, const struct line *line, const struct row *row)
{
    int first = line->number == 1;
    char has[WHY_ROOM], may[WHY_ROOM];
    forms_in_words(row->forms, has, sizeof has);
    forms_in_words(search->forms, may, sizeof may);
    if (first && !row->opens)
        return no_form(search, line, 0, "%s is a step, %s expected", row->word, may);
    if (!first && row->opens)
        return no_form(search, line, 0, "%s opens another journal", row->word);
    if ((row->forms & search->forms) != 0)
        return 0;
    if (first)
        return no_form(search, line, strlen(FIRST_START), "%s converts %s, not %s", uses[search->refusal->use].name, may, has);
    return no_form(search, line, strlen(STEP_START), "%s is a step of %s, not of %s", row->word, has, may);
}

/* Says of a line that goes on after its row's last value what is wrong with it. Returns 1. */
static int something_after(struct search *search, const struct reading *reading)
{
    const struct line *line = reading->line;
    size_t at = reading->at, end = at;
    const struct key *key = foreign_key_at(reading->row, line, at);
    if (key != NULL)
        return no_form(search, line, at, "%s has no %s", reading->row->word, key->text + 1);
    while (end < line->size && line->bytes[end] == ' ')
        end++;
    return no_form(search, line, at, end == line->size ? "blank at its end" : "something after the last value");
}

/* Says where a line leaves its row, and why. Returns 1. */
static int wrong_shape(struct search *search, const struct reading *reading)
{
    const struct line *line = reading->line;
    const char *text = reading->row->keys[reading->keys].text;
    size_t at = reading->at;
    if (text == NULL)
        return something_after(search, reading);
    if (at == line->size)
        return no_form(search, line, at, "%s is missing", text + 1);
    if (line->bytes[at] == ' ' && reading->within == 1)
        return no_form(search, line, at, "double blank");
    return no_form(search, line, at, "%s expected", text + 1);
}

/* Whether a value is wrong: 12 or 13. */
static int wrong_value(struct search *search, const struct line *line, enum kind kind, const struct value *value)
{
    const uint8_t *bytes = line->bytes + value->start;
    size_t end = value->start + value->size;
    uint32_t number = kind == NUMBER ? FABRIC_JOURNAL_WRONG_NUMBER : FABRIC_JOURNAL_WRONG_DATA;
    char why[WHY_ROOM], without[WHY_ROOM];
    if (right_value(kind, bytes, value->size, value->start + 1, why))
        return 0;
    if (end == line->size && value->size > 0 && line->bytes[end - 1] == '\r' &&
        right_value(kind, bytes, value->size - 1, value->start + 1, without))
        snprintf(why, sizeof why, "carriage return at the end of the line, as in a Windows file");
    return wrong(search, number, line, value->start, "%s: %s", sentence_of(number), why);
}

/* Whether one of a line's values of a kind is wrong. */
static int wrong_values(struct search *search, const struct reading *reading, enum kind kind)
{
    for (size_t k = 0; k < reading->keys; k++)
        if (reading->row->keys[k].kind == kind && wrong_value(search, reading->line, kind, &reading->values[k]))
            return 1;
    return 0;
}

/* Whether a line is malformed: the first that applies of 10, 11, 12 and 13. What the first line says is kept. */
static int wrong_line(struct search *search, const struct line *line)
{
    const struct row *row = row_of(line);
    struct reading reading;
    if (wrong_length(search, line))
        return 1;
    if (row == NULL)
        return unknown_word(search, line);
    if (wrong_row(search, line, row))
        return 1;
    if (!follow(row, line, &reading))
        return wrong_shape(search, &reading);
    if (wrong_values(search, &reading, NUMBER) || wrong_values(search, &reading, DATA))
        return 1;
    if (line->number == 1) {
        search->forms = row->forms;
        search->first = *line;
        search->sizes = reading;
        search->sizes.line = &search->first;
    }
    return 0;
}

/* A number of the first line, once that is read. */
static uint32_t size_of(const struct search *search, size_t key)
{
    const struct value *value = &search->sizes.values[key];
    return number_of(search->first.bytes + value->start, value->size);
}

/* The number of lines that the first line opens with. */
static uint32_t lines_of(const struct search *search)
{
    for (size_t k = 0; k < search->sizes.keys; k++)
        if (strcmp(search->sizes.row->keys[k].text, " lines=") == 0)
            return size_of(search, k);
    return 0;
}

/* Whether a size, the lease or the capacity lies outside its limits: 7. */
static int wrong_sizes(struct search *search)
{
    for (size_t k = 0; k < search->sizes.keys; k++) {
        const struct key *key = &search->sizes.row->keys[k];
        int by_lines = key->most == UP_TO_LINES;
        uint32_t found = size_of(search, k), most = by_lines ? lines_of(search) : key->most;
        if (found < 1 || found > most)
            return wrong(search, FABRIC_JOURNAL_SIZES, &search->first, search->sizes.values[k].start, "%s: %.*s is %lu, not 1 to %lu%s",
                         sentence_of(FABRIC_JOURNAL_SIZES), (int)strlen(key->text) - 2, key->text + 1, (unsigned long)found,
                         (unsigned long)most, by_lines ? ", the number of lines" : "");
    }
    return 0;
}

/* Whether the next line of the listing refuses its step with 30. There is one for each line of a journal that is played to its end. */
static int answers_30(struct search *search)
{
    static const char number[] = " refused=30";
    const struct refusal *refusal = search->refusal;
    struct line listed;
    size_t answer;
    if (search->listed >= refusal->listing_size)
        return 0;
    listed = line_at(refusal->listing, refusal->listing_size, search->listed, 0);
    search->listed += listed.size + 1;
    answer = value_end(&listed, 0);
    return answer + strlen(number) == listed.size && common(number, &listed, answer) == strlen(number);
}

/* Whether the first line's cap is not its lines, which fabric=1 can't say: 32. */
static int unlike_cap(struct search *search)
{
    uint32_t lines = lines_of(search);
    for (size_t k = 0; k < search->sizes.keys; k++)
        if (search->sizes.row->keys[k].most == UP_TO_LINES && size_of(search, k) != lines)
            return wrong(search, FABRIC_JOURNAL_UNLIKE, &search->first, search->sizes.values[k].start,
                         "%s: cap is %lu, not %lu, the number of lines", sentence_of(FABRIC_JOURNAL_UNLIKE),
                         (unsigned long)size_of(search, k), (unsigned long)lines);
    return 0;
}

/* Whether a step is one that fabric=1 can't say: 32. */
static int unlike_step(struct search *search, const struct line *line)
{
    const struct row *row = row_of(line);
    int refused = answers_30(search);
    if (row == NULL || (!row->unlike && !refused))
        return 0;
    return wrong(search, FABRIC_JOURNAL_UNLIKE, line, strlen(STEP_START), "%s: %s%s", sentence_of(FABRIC_JOURNAL_UNLIKE), row->word,
                 row->unlike ? "" : ", which is refused with 30 here");
}

/* Goes through the lines, up to the first that is wrong. */
static int any_line(struct search *search, int (*is_wrong)(struct search *, const struct line *))
{
    const struct refusal *refusal = search->refusal;
    size_t number = 1;
    for (size_t start = 0; start < refusal->size; number++) {
        struct line line = line_at(refusal->journal, refusal->size, start, number);
        if (is_wrong(search, &line))
            return 1;
        start += line.size + 1;
    }
    return 0;
}

/* Whether a line ends the run of a journal that is played: malformed, or a first line that opens nothing. */
static int ends_run(struct search *search, const struct line *line)
{
    return wrong_line(search, line) || (line->number == 1 && wrong_sizes(search));
}

/* Whether the journal is empty, 11, or too long, 14: of that, the first byte too many is the place. */
static int wrong_journal(struct search *search)
{
    const struct refusal *refusal = search->refusal;
    struct line line = { refusal->journal, refusal->size, 1, 0 };
    size_t start = 0;
    if (refusal->size == 0)
        return wrong(search, FABRIC_JOURNAL_NO_FORM, &line, 0, "the journal is empty");
    if (refusal->size <= FABRIC_MOST_JOURNAL)
        return 0;
    for (size_t i = 0; i < FABRIC_MOST_JOURNAL; i++)
        if (refusal->journal[i] == '\n') {
            line.number++;
            start = i + 1;
        }
    return wrong(search, FABRIC_JOURNAL_TOO_LONG, &line, FABRIC_MOST_JOURNAL - start, "the journal has over %d bytes", FABRIC_MOST_JOURNAL);
}

/* Says that the result would be too long, which is no line's fault. Returns 1. */
static int long_result(struct search *search)
{
    wrong(search, FABRIC_JOURNAL_TOO_LONG, &search->first, 0, "the result would have over %d bytes", FABRIC_MOST_RESULT);
    search->place->line = search->place->column = 0;
    return 1;
}

/* Looks for what is wrong, in the order of a run or of a conversion. Returns whether there is something. */
static int look(struct search *search)
{
    if (wrong_journal(search))
        return 1;
    if (search->refusal->use == PLAY)
        return any_line(search, ends_run);
    if (any_line(search, wrong_line) || wrong_sizes(search))
        return 1;
    if (search->refusal->use == CONVERT_TO_1 && (unlike_cap(search) || any_line(search, unlike_step)))
        return 1;
    return long_result(search);
}

/* Whether what was found is what the library told. Of a journal that is too long the library tells its first line. */
static int is_told(const struct refusal *refusal, const struct place *place)
{
    int any = refusal->line == 0 || refusal->number == FABRIC_JOURNAL_TOO_LONG;
    return place->number == refusal->number && (any || place->line == refusal->line);
}

int find_place(const struct refusal *refusal, struct place *place)
{
    struct search search = { .refusal = refusal, .place = place, .forms = uses[refusal->use].forms };
    if (look(&search) && is_told(refusal, place))
        return 1;
    place->number = refusal->number;
    place->line = refusal->line;
    place->column = 0;
    snprintf(place->sentence, SENTENCE_ROOM, "%s", sentence_of(refusal->number));
    return 0;
}
