/* What `plfs ROOT play` is measured against where one actor makes many small writes: the same container and the same lines made by
   hand in plain C.

       writes FOLDER < SCRIPT

   FOLDER is empty. SCRIPT has the lines `actor a`, `a open f`, one `a write PLACE text:BYTES` for each write, and `a close`. It is read
   whole before the first write, and the lines are printed behind the last one, as plfs does. */
#include "by_hand.h"

/* A write of a script: its line's number, its place and its bytes. */
struct statement {
    uint64_t line, at;
    const uint8_t *bytes;
    size_t size;
};

static uint8_t input[MOST + 1];

static struct writer writer;

static struct statement statements[MOST / 16];

/* Three numbers, a stamp and a word in a line take no more. */
static char lines[MOST / 16 * 96], *told = lines;

static void tell(const char *word)
{
    while (*word != 0)
        *told++ = *word++;
}

static void tell_number(uint64_t number)
{
    char digits[20], *first = digits + sizeof digits;
    do
        *--first = (char)('0' + number % 10);
    while ((number /= 10) != 0);
    memcpy(told, first, (size_t)(digits + sizeof digits - first));
    told += digits + sizeof digits - first;
}

/* Whether the line begins with these bytes. Then it is behind them. */
static int begins(const uint8_t **line, const uint8_t *stop, const char *with)
{
    size_t length = strlen(with);
    if ((size_t)(stop - *line) < length || memcmp(*line, with, length) != 0)
        return 0;
    *line += length;
    return 1;
}

static struct statement write_in(const uint8_t *line, const uint8_t *stop, uint64_t number)
{
    struct statement found = {number, 0, NULL, 0};
    must(begins(&line, stop, "a write ") && line < stop && *line >= '0' && *line <= '9', "a line");
    for (; line < stop && *line >= '0' && *line <= '9'; line++)
        found.at = 10 * found.at + *line - '0';
    must(begins(&line, stop, " text:"), "a line");
    found.bytes = line;
    found.size = (size_t)(stop - line);
    for (; line < stop; line++)
        must(*line >= '!' && *line <= '~', "a line");
    return found;
}

int main(int count, char **words)
{
    must(count == 2 && chdir(words[1]) == 0, "FOLDER");
    size_t length = read_input(input), writes = 0;
    uint64_t number = 0;
    for (const uint8_t *line = input, *over = input + length; line < over;) {
        const uint8_t *stop = memchr(line, '\n', (size_t)(over - line));
        must(stop != NULL, "a line");
        if (++number > 2 && *line == 'a' && stop - line > 7) {
            must(writes < sizeof statements / sizeof *statements, "the script");
            statements[writes++] = write_in(line, stop, number);
        }
        line = stop + 1;
    }
    open_writer(&writer);
    tell("2 open " ID "\n");
    for (size_t place = 0; place < writes; place++) {
        struct statement *next = &statements[place];
        uint64_t stamp = append(&writer, next->at, next->bytes, next->size);
        tell_number(next->line);
        tell(" wrote ");
        tell_number(next->at);
        tell(" ");
        tell_number(next->size);
        tell(" ");
        tell_number(stamp);
        tell("\n");
    }
    close_writer(&writer);
    tell_number(number);
    tell(" closed ");
    tell_number(writes);
    tell("\n");
    must(fwrite(lines, 1, (size_t)(told - lines), stdout) == (size_t)(told - lines), "standard output");
    return 0;
}
