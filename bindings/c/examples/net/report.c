#define _DEFAULT_SOURCE

#include "status.h"

#include <err.h>
#include <stdarg.h>
#include <stdio.h>
#include <string.h>

/* More fields than a server has letters for. */
enum { FIELDS = 32 };

enum status complain(enum status status, const char *format, ...)
{
    va_list arguments;
    va_start(arguments, format);
    vwarnx(format, arguments);
    va_end(arguments);
    return status;
}

enum status complain_of_memory(void)
{
    return complain(STATUS_MEMORY, "out of memory");
}

enum status complain_of_fault(const pgmsg_fault *fault)
{
    enum status status = fault->number == PGMSG_OUT_OF_MEMORY ? STATUS_MEMORY : STATUS_PROTOCOL;
    if (fault->words_len == 0) /* for which there was no memory */
        return complain(status, "%s", pgmsg_strerror(fault->number));
    return complain(status, "%.*s", (int)fault->words_len, (const char *)fault->words);
}

enum status complain_of_message(const struct message *message)
{
    return complain(STATUS_PROTOCOL, "a message of type %c may not come here", message->tag);
}

/* Whether a character is U+202A to U+202E or U+2066 to U+2069, after which a text is shown in another order. */
static bool is_direction(const uint8_t *character)
{
    bool is_embedding = character[1] == 0x80 && character[2] >= 0xaa && character[2] <= 0xae;
    bool is_isolate = character[1] == 0x81 && character[2] >= 0xa6 && character[2] <= 0xa9;
    return character[0] == 0xe2 && (is_embedding || is_isolate);
}

/* Whether a terminal may obey a character of UTF-8. */
static bool is_obeyed_character(const uint8_t *character, size_t count)
{
    switch (count) {
    case 1: return character[0] < ' ' || character[0] == 0x7f;
    case 2: return character[0] == 0xc2 && character[1] < 0xa0;
    case 3: return is_direction(character);
    default: return false;
    }
}

/* How many bytes the character at the front of a text has, which isn't empty: 1 where it isn't UTF-8. A terminal may obey
 * control characters, also as one byte from 0x80 to 0x9f, and those that change the order in which a text is shown. */
static size_t next_character(const uint8_t *text, size_t len, bool *is_obeyed)
{
    for (size_t count = 1; count <= 4 && count <= len; count++)
        if (pgmsg_check_utf8(text, count) == count) {
            *is_obeyed = is_obeyed_character(text, count);
            return count;
        }
    *is_obeyed = text[0] < 0xa0;
    return 1;
}

static void print_bytes(const uint8_t *text, size_t len)
{
    for (size_t i = 0; i < len; i++)
        printf("\\x%02x", text[i]);
}

void print_escaped(const uint8_t *text, size_t len)
{
    static const char special[] = "\\\t\n\r", letters[] = "\\tnr";
    for (size_t at = 0, count; at < len; at += count) {
        bool is_obeyed;
        const char *found = text[at] != 0 ? strchr(special, text[at]) : NULL;
        count = next_character(text + at, len - at, &is_obeyed);
        if (found != NULL)
            printf("\\%c", letters[found - special]);
        else if (is_obeyed)
            print_bytes(text + at, count);
        else
            fwrite(text + at, 1, count, stdout);
    }
}

/* Prints a text of the server without the bytes that a terminal would obey. Standard error has no buffer of its own. */
static void print_text(const uint8_t *text, size_t len)
{
    char shown[1024];
    size_t used = 0;
    for (size_t at = 0, count; at < len; at += count) {
        bool is_obeyed, is_space = text[at] == '\n' || text[at] == '\t';
        count = next_character(text + at, len - at, &is_obeyed);
        memcpy(shown + used, is_obeyed && !is_space ? "????" : (const char *)text + at, count);
        used += count;
        if (used > sizeof shown - 4 || at + count == len) {
            fwrite(shown, 1, used, stderr);
            used = 0;
        }
    }
}

/* The fields of an error or a notice. */
struct fields {
    const uint8_t *body;
    size_t count;
    pgmsg_field all[FIELDS];
};

/* Prints the first field of a letter between two texts, where there is one. */
static bool print_field(const struct fields *fields, char letter, const char *before, const char *after)
{
    for (size_t i = 0; i < fields->count; i++) {
        const pgmsg_field *field = &fields->all[i];
        if (field->letter == (uint8_t)letter) {
            fputs(before, stderr);
            print_text(fields->body + field->value.at, field->value.len);
            fputs(after, stderr);
            return true;
        }
    }
    return false;
}

void report(const struct message *message)
{
    struct fields fields = {.body = message->body};
    size_t count = pgmsg_read_fields(message->body, message->len, fields.all, FIELDS);
    fields.count = count < FIELDS ? count : FIELDS;
    if (!print_field(&fields, 'S', "", " "))
        print_field(&fields, 'V', "", " ");
    print_field(&fields, 'C', "", ": ");
    if (!print_field(&fields, 'M', "", "\n"))
        fputs("the server gives no reason\n", stderr);
    print_field(&fields, 'D', "detail: ", "\n");
    print_field(&fields, 'H', "hint: ", "\n");
    print_field(&fields, 'W', "context: ", "\n");
}
