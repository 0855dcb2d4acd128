/*
 * fabric.c: the command fabric. It reads a journal, has the library check, play, count or convert it, and says of a refusal where it is.
 *
 * The library is proved. This front is tested, not proved: the command line, the input and the output, and the place of a refusal.
 */
#include "fabric.h"

#include "input_output.h"
#include "listing.h"
#include "place.h"

#include <ctype.h>
#include <errno.h>
#include <getopt.h>
#include <stdarg.h>
#include <stdio.h>
#include <stdlib.h>
#include <string.h>
#include <unistd.h>

/* The exit statuses. */
enum { DONE = 0, REFUSED = 1, FAILED = 2 };

/* The room of a name in a message, and of a message. */
#define NAME_ROOM 4200
#define MESSAGE_ROOM (NAME_ROOM + 400)

/* The room of a help text. */
#define HELP_ROOM 2000

/* A journal: its name as messages have it, and its bytes, one more than it may have being enough to see that they are too many. */
struct journal {
    char name[NAME_ROOM];
    size_t size;
    uint8_t bytes[FABRIC_MOST_JOURNAL + 1];
};

/* A subcommand: its name, its help, and what it does with a journal, which gives the exit status. */
struct subcommand {
    const char *name;
    const char *what; /* for the list of subcommands */
    const char *more; /* for its own help */
    int (*run)(const struct journal *journal);
};

/* Writes one line to standard error. Returns the status. Where it can't be written, the status is all that is left to say. */
__attribute__((format(printf, 2, 3)))
static int say(int status, const char *format, ...)
{
    char message[MESSAGE_ROOM];
    size_t size;
    va_list values;
    va_start(values, format);
    vsnprintf(message, sizeof message - 1, format, values);
    va_end(values);
    size = strlen(message);
    message[size++] = '\n';
    write_all(STDERR_FILENO, message, size);
    return status;
}

/* Puts a name between quotes, which may be empty, into NAME_ROOM bytes. Line ends and the like become ?, and a long name is cut off. */
static void show_name(const char *name, const char *quote, char *shown)
{
    int cut = strlen(name) > NAME_ROOM - 5;
    snprintf(shown, NAME_ROOM, "%s%.*s%s%s", quote, NAME_ROOM - 5, name, cut ? ".." : "", quote);
    for (char *c = shown; *c != '\0'; c++)
        if ((unsigned char)*c < ' ' || *c == 127)
            *c = '?';
}

/* Writes all that goes to standard output. Returns the status. */
static int print(const void *bytes, size_t size)
{
    if (write_output(bytes, size))
        return DONE;
    return say(FAILED, "fabric: cannot write standard output: %s", strerror(errno));
}

/* Says of a refusal where it is and why. */
static int say_place(const struct journal *journal, const struct refusal *refusal)
{
    struct place place;
    unsigned number = refusal->number;
    find_place(refusal, &place);
    if (place.line == 0)
        return say(REFUSED, "%s: %u: %s", journal->name, number, place.sentence);
    if (place.column == 0)
        return say(REFUSED, "%s:%zu: %u: %s", journal->name, place.line, number, place.sentence);
    return say(REFUSED, "%s:%zu:%zu: %u: %s", journal->name, place.line, place.column, number, place.sentence);
}

/* Says that there is no memory for a listing. */
static int no_memory(void)
{
    return say(FAILED, "fabric: cannot get memory: %s", strerror(errno));
}

/* Looks a journal over: prints nothing where it is right, and says what refuses it where it is not. */
static int check(const struct journal *journal)
{
    struct refusal refusal = { .use = PLAY, .journal = journal->bytes, .size = journal->size };
    refusal.number = fabric_check(journal->bytes, journal->size, &refusal.line);
    return refusal.number == FABRIC_JOURNAL_RIGHT ? DONE : say_place(journal, &refusal);
}

/* Prints the listing, whole also where the journal is refused, which is then said. */
static int list(const struct journal *journal)
{
    size_t length;
    uint8_t *listing = listing_of(journal->bytes, journal->size, &length);
    int status;
    if (listing == NULL)
        return no_memory();
    status = print(listing, length);
    free(listing);
    return status == DONE ? check(journal) : status;
}

/* Prints the tally, of what ran where the journal is refused, which is then said. */
static int tally(const struct journal *journal)
{
    uint8_t line[FABRIC_MOST_TALLY];
    size_t length = fabric_tally(journal->bytes, journal->size, line, sizeof line);
    int status = print(line, length);
    return status == DONE ? check(journal) : status;
}

/* Says why a journal has no result. For 32 the run is looked at. */
static int say_unconverted(const struct journal *journal, enum use use, uint32_t number)
{
    struct refusal refusal = { .use = use, .journal = journal->bytes, .size = journal->size, .number = number };
    uint8_t *listing = NULL;
    int status;
    if (number == FABRIC_JOURNAL_UNLIKE) {
        listing = listing_of(journal->bytes, journal->size, &refusal.listing_size);
        if (listing == NULL)
            return no_memory();
    }
    refusal.listing = listing;
    status = say_place(journal, &refusal);
    free(listing);
    return status;
}

/* Prints the journal in the other form, or says why there is none. */
static int convert(const struct journal *journal, enum use use)
{
    static uint8_t result[FABRIC_MOST_RESULT];
    size_t length = 0;
    uint32_t number = use == CONVERT_TO_1 ? fabric_to1(journal->bytes, journal->size, result, sizeof result, &length)
                                          : fabric_to2(journal->bytes, journal->size, result, sizeof result, &length);
    return number == FABRIC_JOURNAL_RIGHT ? print(result, length) : say_unconverted(journal, use, number);
}

/* Prints a journal of fabric=2 in fabric=1. */
static int to1(const struct journal *journal)
{
    return convert(journal, CONVERT_TO_1);
}

/* Prints a journal of fabric=1 in fabric=2. */
static int to2(const struct journal *journal)
{
    return convert(journal, CONVERT_TO_2);
}

/* Every subcommand, in the order of the help. */
static const struct subcommand subcommands[] = {
    { "list", "play the journal and print its listing", "Of a journal that is refused, the listing ends with the refusal.", list },
    { "tally", "play the journal and print the tally of its traffic", "Of a journal that is refused, what ran before is counted.", tally },
    { "to1", "convert a journal of fabric=2 to fabric=1", "Of a journal that is refused, nothing is printed.", to1 },
    { "to2", "convert a journal of fabric=1 to fabric=2", "Of a journal that is refused, nothing is printed.", to2 },
    { "check", "look the journal over without playing it", "Of a journal that is right, nothing is printed.", check },
};

#define SUBCOMMANDS (sizeof subcommands / sizeof *subcommands)

/* The subcommand of a name, or NULL. */
static const struct subcommand *subcommand_of(const char *name)
{
    for (size_t s = 0; s < SUBCOMMANDS; s++)
        if (strcmp(subcommands[s].name, name) == 0)
            return &subcommands[s];
    return NULL;
}

/* How each help ends. */
static const char ending[] = "\n"
                             "Without FILE, or where FILE is -, standard input is read. A refusal is said on\n"
                             "standard error, as FILE:LINE:COLUMN: NUMBER: why.\n"
                             "\n"
                             "  -h, --help     print this help, or a subcommand's, and end\n"
                             "  -V, --version  print the version and end\n"
                             "\n"
                             "Exit status: 0 done, 1 the journal was refused, 2 wrong usage, or input or\n"
                             "output that failed. The manual page fabric(1) says more.\n";

/* Prints the help of a subcommand, or of the command. */
static int help(const struct subcommand *subcommand)
{
    char text[HELP_ROOM];
    size_t size = 0;
    if (subcommand != NULL) {
        size += (size_t)sprintf(text, "Usage: fabric %s [FILE]\n%c%s.\n%s\n", subcommand->name, toupper(subcommand->what[0]),
                                subcommand->what + 1, subcommand->more);
    } else {
        size += (size_t)sprintf(text, "Usage: fabric SUBCOMMAND [FILE]\nLooks at a journal of a Tardis TSO fabric.\n\n");
        for (size_t s = 0; s < SUBCOMMANDS; s++)
            size += (size_t)sprintf(text + size, "  %-6s %s\n", subcommands[s].name, subcommands[s].what);
    }
    size += (size_t)sprintf(text + size, "%s", ending);
    return print(text, size);
}

/* Prints the version. */
static int version(void)
{
    static const char text[] = "fabric " FABRIC_VERSION "\n";
    return print(text, sizeof text - 1);
}

/* Says what is wrong with the command line, and with which word of it. */
static int wrong_usage(const char *why, const char *word)
{
    char shown[NAME_ROOM];
    show_name(word, "'", shown);
    return say(FAILED, "fabric: %s %s; see 'fabric --help'", why, shown);
}

/* Reads a journal: the file of a path, or standard input where it is NULL or `-`. Returns the status. */
static int read_journal(const char *path, struct journal *journal)
{
    int file = path != NULL && strcmp(path, "-") != 0, descriptor = STDIN_FILENO;
    const char *name = file ? path : "standard input";
    char shown[NAME_ROOM];
    show_name(name, "", journal->name);
    show_name(name, file ? "'" : "", shown);
    if (file && (descriptor = open_input(path)) < 0)
        return say(FAILED, "fabric: cannot open %s: %s", shown, strerror(errno));
    if (!read_all(descriptor, journal->bytes, sizeof journal->bytes, &journal->size))
        return say(FAILED, "fabric: cannot read %s: %s", shown, strerror(errno));
    if (file)
        close(descriptor);
    return DONE;
}

/* What the command line asks for. */
struct request {
    const char *subcommand;
    const char *file;
    int help;
    int version;
};

/* Takes the next word that is no option: the subcommand, or the file. Returns the status. */
static int take_word(struct request *request, const char *word)
{
    if (request->subcommand == NULL)
        request->subcommand = word;
    else if (request->file == NULL)
        request->file = word;
    else
        return wrong_usage("more than one file:", word);
    return DONE;
}

/* What getopt_long gives for the long options: no letters, so that optopt tells them from the short ones. */
enum { HELP = 256, VERSION };

/* Says of an option that getopt_long refuses which it is: a long one, which is the word just read, or a short one, the letter in optopt. */
static int unknown_option(char **words)
{
    char letter[] = { '-', optopt > ' ' && optopt < 127 ? (char)optopt : '?', '\0' };
    return wrong_usage("unknown option", optopt == 0 || optopt >= HELP ? words[optind - 1] : letter);
}

/* Reads the command line. An option may stand anywhere before `--`, whatever the environment says. Returns the status. */
static int read_words(int count, char **words, struct request *request)
{
    static const struct option options[] = {
        { "help", no_argument, NULL, HELP },
        { "version", no_argument, NULL, VERSION },
        { NULL, 0, NULL, 0 },
    };
    int status = DONE, option;
    opterr = 0;
    while (status == DONE && (option = getopt_long(count, words, "-hV", options, NULL)) != -1)
        switch (option) {
        case 'h':
        case HELP:
            request->help = 1;
            break;
        case 'V':
        case VERSION:
            request->version = 1;
            break;
        case 1:
            status = take_word(request, optarg);
            break;
        default:
            status = unknown_option(words);
        }
    while (status == DONE && optind < count)
        status = take_word(request, words[optind++]);
    return status;
}

/* Does what the command line asks for. */
int main(int count, char **words)
{
    static struct journal journal;
    struct request request = { NULL, NULL, 0, 0 };
    const struct subcommand *subcommand = NULL;
    int status = read_words(count, words, &request);
    if (status != DONE)
        return status;
    if (request.subcommand != NULL && (subcommand = subcommand_of(request.subcommand)) == NULL)
        return wrong_usage("unknown subcommand", request.subcommand);
    if (request.help)
        return help(subcommand);
    if (request.version)
        return version();
    if (subcommand == NULL)
        return say(FAILED, "fabric: no subcommand; see 'fabric --help'");
    status = read_journal(request.file, &journal);
    return status == DONE ? subcommand->run(&journal) : status;
}
