#include "image.h"
#include "ends.h"
#include "layout.h"

/* The limits of the numbers in an image's text, and the digits of its words. */
enum { VERSIONS = 2, DATA_WORDS = GLOBALS_BYTES / 8, MAP_ITEMS = 131072, OPERATIONS = 65535 };
enum { WORD_DIGITS = 8, VALUE_DIGITS = 16 };

/* What is left of a text. */
struct text {
    const u8 *at, *end;
};

extern u32 image_code[];
extern u64 image_globals[];

static _Noreturn void misspelled(void)
{
    refuse("the text isn't spelled as an image");
}

static u8 take(struct text *text)
{
    if (text->at == text->end) misspelled();
    return *text->at++;
}

static void take_word(struct text *text, const char *word)
{
    while (*word) {
        if (take(text) != (u8)*word++) misspelled();
    }
}

static bool begins_with(const struct text *text, const char *word)
{
    for (const u8 *at = text->at; *word; at++, word++) {
        if (at == text->end || *at != (u8)*word) return false;
    }
    return true;
}

static bool is_digit(u8 byte)
{
    return '0' <= byte && byte <= '9';
}

/* A decimal number, up to a limit. */
static u64 take_number(struct text *text, u64 limit)
{
    u64 value = 0;
    do {
        u8 digit = take(text);
        if (!is_digit(digit)) misspelled();
        value = 10 * value + (digit - '0');
        if (value > limit) misspelled();
    } while (text->at < text->end && is_digit(*text->at));
    return value;
}

static u64 take_hex(struct text *text, int digits)
{
    u64 value = 0;
    while (digits--) {
        u8 digit = take(text);
        if (is_digit(digit)) value = value << 4 | (digit - '0');
        else if ('A' <= digit && digit <= 'F') value = value << 4 | (digit - 'A' + 10);
        else misspelled();
    }
    return value;
}

static void skip_line(struct text *text)
{
    while (take(text) != '\n') {}
}

/* The number of lines of a part, behind its word. */
static u64 take_count(struct text *text, const char *word, u64 limit)
{
    take_word(text, word);
    u64 count = take_number(text, limit);
    take_word(text, "\n");
    return count;
}

static u64 read_code(struct text *text)
{
    u64 words = take_count(text, "code ", CODE_WORDS);
    for (u64 i = 0; i < words; i++) {
        image_code[i] = (u32)take_hex(text, WORD_DIGITS);
        take_word(text, "\n");
    }
    return words;
}

static void read_data(struct text *text)
{
    for (u64 left = take_count(text, "data ", DATA_WORDS); left; left--) {
        u64 index = take_number(text, DATA_WORDS - 1);
        take_word(text, " ");
        image_globals[index] = take_hex(text, VALUE_DIGITS);
        take_word(text, "\n");
    }
}

static u64 read_cells(struct text *text, u64 cells[CELLS])
{
    u64 count = take_count(text, "cells ", CELLS);
    for (u64 i = 0; i < count; i++) {
        cells[i] = image_globals[take_number(text, DATA_WORDS - 1)];
        take_word(text, "\n");
    }
    return count;
}

static void skip_part(struct text *text, const char *word)
{
    for (u64 left = take_count(text, word, MAP_ITEMS); left; left--) skip_line(text);
}

/* Where the SVC of the operation's Begin group stands: behind the MOVZ at the row's address. */
static u64 read_rows(struct text *text, u64 operation)
{
    u64 begin_at = 0;
    for (u64 left = take_count(text, "rows ", MAP_ITEMS); left; left--) {
        if (begins_with(text, "begin ")) {
            take_word(text, "begin ");
            u64 address = take_hex(text, WORD_DIGITS);
            take_word(text, " ");
            if (take_number(text, OPERATIONS) == operation) begin_at = address + 4;
        }
        skip_line(text);
    }
    return begin_at;
}

struct image read_image(const u8 *content, size_t length, u64 operation, u64 cells[CELLS])
{
    struct image image;
    struct text text = {content, content + length};
    sha256(content, length, image.digest);
    take_word(&text, "oat-image ");
    take_number(&text, VERSIONS);
    take_word(&text, "\n");
    image.words = read_code(&text);
    read_data(&text);
    image.cells = read_cells(&text, cells);
    skip_part(&text, "functions ");
    skip_part(&text, "blocks ");
    image.begin_at = read_rows(&text, operation);
    take_word(&text, "end\n");
    if (text.at != text.end) misspelled();
    if (!image.begin_at) refuse("the image has no such operation");
    return image;
}
