/* What `plfs ROOT pack f 0` is measured against: the same container made by hand in plain C.

       pack FOLDER < INPUT

   FOLDER is empty. INPUT has a line for each small file: its name, a space, and its bytes in lower-case digits, or a dash.
   It prints how many files were put and where the last one ends. */
#include "by_hand.h"

static uint8_t worth[256];

static uint8_t input[MOST + 1], unit[16 + 64 + MOST / 2];

static struct writer writer;

int main(int count, char **words)
{
    must(count == 2 && chdir(words[1]) == 0, "FOLDER");
    size_t length = read_input(input);
    memset(worth, 255, sizeof worth);
    for (int digit = 0; digit < 16; digit++)
        worth[(uint8_t) "0123456789abcdef"[digit]] = (uint8_t)digit;
    open_writer(&writer);
    uint64_t files = 0;
    for (const uint8_t *line = input, *over = input + length; line < over; files++) {
        const uint8_t *feed = memchr(line, '\n', (size_t)(over - line));
        const uint8_t *stop = feed ? feed : over;
        const uint8_t *space = memchr(line, ' ', (size_t)(stop - line));
        must(space != NULL && space - line <= 64, "a line");
        const uint8_t *digits = space + 1;
        size_t name = (size_t)(space - line), bytes = (size_t)(stop - digits) / 2;
        must((stop - digits) % 2 == 0 || (stop - digits == 1 && *digits == '-'), "a line");
        uint8_t *to = put_number(put_number(unit, name), bytes);
        memcpy(to, line, name);
        to += name;
        uint8_t all = 0;
        for (size_t byte = 0; byte < bytes; byte++) {
            uint8_t high = worth[digits[2 * byte]], low = worth[digits[2 * byte + 1]];
            all |= high | low;
            *to++ = (uint8_t)(high << 4 | low);
        }
        must(all < 16, "a digit");
        append(&writer, writer.end, unit, (size_t)(to - unit));
        line = feed ? feed + 1 : over;
    }
    close_writer(&writer);
    printf("%llu %llu\n", (unsigned long long)files, (unsigned long long)writer.end);
    return 0;
}
