/* Texts of the one style, commands, answers and records: see confstore.h. SPDX-License-Identifier: Apache-2.0 */
#include "confstore_inner.h"

#include <stdlib.h>

/* The longest word that is plain. */
#define LONGEST_WORD 128

/* Bytes. */

void confstore_bytes_free(struct confstore_bytes *bytes) {
    free(bytes->data);
    *bytes = (struct confstore_bytes){0};
}

enum confstore_status confstore_bytes_reserve(struct confstore_bytes *bytes, size_t more) {
    if (more <= bytes->room - bytes->length) return CONFSTORE_OK;
    if (more > SIZE_MAX / 4 - bytes->length) return CONFSTORE_NO_MEMORY;
    size_t room = 2 * (bytes->length + more) + 64;
    char *data = realloc(bytes->data, room);
    if (!data) return CONFSTORE_NO_MEMORY;
    bytes->data = data;
    bytes->room = room;
    return CONFSTORE_OK;
}

enum confstore_status confstore_bytes_add(struct confstore_bytes *bytes, const char *more, size_t length) {
    if (confstore_bytes_reserve(bytes, length) != CONFSTORE_OK) return CONFSTORE_NO_MEMORY;
    if (length) memcpy(bytes->data + bytes->length, more, length);
    bytes->length += length;
    return CONFSTORE_OK;
}

static bool push(struct confstore_bytes *bytes, const char *more, size_t length) {
    return confstore_bytes_add(bytes, more, length) == CONFSTORE_OK;
}

static bool push_byte(struct confstore_bytes *bytes, char byte) { return push(bytes, &byte, 1); }

static bool push_spaces(struct confstore_bytes *bytes, size_t count) {
    if (confstore_bytes_reserve(bytes, count) != CONFSTORE_OK) return false;
    if (count) memset(bytes->data + bytes->length, ' ', count);
    bytes->length += count;
    return true;
}

/* Texts. */

/* The length of the character at the start of the bytes, and its number; 0 where none of UTF-8 is. */
static size_t character(const char *text, size_t length, uint32_t *number) {
    const unsigned char *bytes = (const unsigned char *)text;
    static const uint32_t LEAST[] = {0, 0, 0x80, 0x800, 0x10000};
    size_t size = bytes[0] < 0x80 ? 1 : bytes[0] < 0xc0 ? 0 : bytes[0] < 0xe0 ? 2 : bytes[0] < 0xf0 ? 3 : 4;
    if (size == 0 || size > length || bytes[0] > 0xf4) return 0;
    uint32_t found = size == 1 ? bytes[0] : bytes[0] & (0x7fu >> size);
    for (size_t at = 1; at < size; at++) {
        if ((bytes[at] & 0xc0) != 0x80) return 0;
        found = found << 6 | (bytes[at] & 0x3f);
    }
    if (found < LEAST[size] || found > 0x10ffff || (found >= 0xd800 && found < 0xe000)) return 0;
    *number = found;
    return size;
}

/* Whether a character stands as it is in double quotes and in lines. */
static bool is_shown(uint32_t number) {
    if (number < 0xa0) return number >= 0x20 && number < 0x7f;
    return number != 0x2028 && number != 0x2029 && number != 0xfeff && number != 0xfffe && number != 0xffff;
}

static bool is_letter(char byte) { return (byte >= 'a' && byte <= 'z') || (byte >= 'A' && byte <= 'Z'); }

static bool is_word(const char *text, size_t length) {
    static const char *const NONE[] = {"null", "true", "false", "yes", "no", "on", "off", "y", "n"};
    if (length == 0 || length > LONGEST_WORD || !is_letter(text[0])) return false;
    for (size_t at = 1; at < length; at++) {
        char byte = text[at];
        if (!is_letter(byte) && !(byte >= '0' && byte <= '9') && (byte == 0 || !strchr("_-./", byte))) return false;
    }
    for (size_t number = 0; number < sizeof NONE / sizeof *NONE; number++) {
        bool is_same = strlen(NONE[number]) == length;
        for (size_t at = 0; is_same && at < length; at++) is_same = (text[at] | 0x20) == NONE[number][at];
        if (is_same) return false;
    }
    return true;
}

static const char ESCAPED[] = "\0\a\b\t\n\v\f\r\x1b\"\\";
static const char ESCAPES[] = "0abtnvfre\"\\";

static bool push_escape(struct confstore_bytes *to, uint32_t number) {
    const char *found = number < 0x80 ? memchr(ESCAPED, (int)number, sizeof ESCAPED - 1) : NULL;
    if (found) return push_byte(to, '\\') && push_byte(to, ESCAPES[found - ESCAPED]);
    static const char DIGITS[] = "0123456789ABCDEF";
    char spelled[6] = {'\\', number < 0x100 ? 'x' : 'u'};
    size_t digits = number < 0x100 ? 2 : 4;
    for (size_t at = 0; at < digits; at++) spelled[2 + at] = DIGITS[number >> 4 * (digits - 1 - at) & 15];
    return push(to, spelled, 2 + digits);
}

/* Writes a text that is UTF-8 in double quotes. */
static bool push_quoted(struct confstore_bytes *to, const char *text, size_t length) {
    bool is_done = push_byte(to, '"');
    for (size_t at = 0, size; is_done && at < length; at += size) {
        uint32_t number = 0;
        size = character(text + at, length - at, &number);
        bool is_plain = is_shown(number) && number != '"' && number != '\\';
        is_done = is_plain ? push(to, text + at, size) : push_escape(to, number);
    }
    return is_done && push_byte(to, '"');
}

/* Writes a text that may be lines, with the last line's feed: after its header, behind so many spaces. */
static bool push_lines(struct confstore_bytes *to, const char *text, size_t length, size_t indentation) {
    size_t ends = 0;
    while (text[length - 1 - ends] == '\n') ends++;
    const char *header = ends == 0 ? "|-" : ends == 1 ? "|" : "|+";
    bool is_done = push(to, header, strlen(header));
    is_done = is_done && push_byte(to, '\n');
    for (size_t at = 0; is_done && at < length;) {
        const char *feed = memchr(text + at, '\n', length - at);
        size_t end = feed ? (size_t)(feed - text) : length;
        is_done = (end == at || push_spaces(to, indentation)) && push(to, text + at, end - at) && push_byte(to, '\n');
        at = end + 1;
    }
    return is_done;
}

/* Whether the bytes are UTF-8, and whether they may be lines. */
static bool look(const char *text, size_t length, bool *may_be_lines) {
    *may_be_lines = length > 0 && text[0] != ' ' && text[0] != '\n' && memchr(text, '\n', length);
    for (size_t at = 0, size; at < length; at += size) {
        uint32_t number = 0;
        size = character(text + at, length - at, &number);
        if (size == 0) return false;
        if (number != '\n' && !is_shown(number)) *may_be_lines = false;
    }
    return true;
}

/* What a write that failed leaves. */
static enum confstore_status written(struct confstore_bytes *to, size_t before, bool is_done) {
    if (!is_done) to->length = before;
    return is_done ? CONFSTORE_OK : CONFSTORE_NO_MEMORY;
}

enum confstore_status confstore_write_text(struct confstore_bytes *to, const char *text, size_t length,
                                           size_t indentation) {
    size_t before = to->length;
    bool may_be_lines;
    if (is_word(text, length)) return written(to, before, push(to, text, length) && push_byte(to, '\n'));
    if (!look(text, length, &may_be_lines)) return CONFSTORE_NOT_TEXT;
    if (may_be_lines) return written(to, before, push_lines(to, text, length, indentation));
    return written(to, before, push_quoted(to, text, length) && push_byte(to, '\n'));
}

enum confstore_status confstore_write_key(struct confstore_bytes *to, const char *text, size_t length) {
    size_t before = to->length;
    bool may_be_lines;
    if (is_word(text, length)) return written(to, before, push(to, text, length));
    if (!look(text, length, &may_be_lines)) return CONFSTORE_NOT_TEXT;
    return written(to, before, push_quoted(to, text, length));
}

/* Commands. */

/* Writes the start of a line, a word as the key, and a text as its value. */
static enum confstore_status write_pair(struct confstore_bytes *to, const char *start, const char *key,
                                        const char *text, size_t length) {
    size_t before = to->length, margin = strlen(start);
    enum confstore_status status = push(to, start, margin) ? CONFSTORE_OK : CONFSTORE_NO_MEMORY;
    if (status == CONFSTORE_OK) status = confstore_write_key(to, key, strlen(key));
    if (status == CONFSTORE_OK && !push(to, ": ", 2)) status = CONFSTORE_NO_MEMORY;
    if (status == CONFSTORE_OK) status = confstore_write_text(to, text, length, margin + 2);
    if (status != CONFSTORE_OK) to->length = before;
    return status;
}

enum confstore_status confstore_write_pair(struct confstore_bytes *to, const char *key, const char *text,
                                           size_t length) {
    return write_pair(to, "", key, text, length);
}

/* The starts of the lines of an edit in a batch: of the first one, and of the others. */
#define FIRST_OF_EDIT "  - "
#define OTHER_OF_EDIT "    "

enum confstore_status confstore_begin_edit(struct confstore_bytes *command, const char *word, const char *name,
                                           size_t length) {
    return write_pair(command, FIRST_OF_EDIT, word, name, length);
}

enum confstore_status confstore_write_edit_pair(struct confstore_bytes *command, const char *key, const char *text,
                                                size_t length) {
    return write_pair(command, OTHER_OF_EDIT, key, text, length);
}

/* Makes the bytes the first lines of a command. */
static enum confstore_status begin_with(struct confstore_bytes *command, const char *lines) {
    size_t before = command->length;
    command->length = 0;
    return written(command, before, push(command, lines, strlen(lines)));
}

enum confstore_status confstore_begin(struct confstore_bytes *command) { return begin_with(command, "---\n"); }

enum confstore_status confstore_begin_batch(struct confstore_bytes *command) {
    return begin_with(command, "---\nbatch:\n");
}

enum confstore_status confstore_end(struct confstore_bytes *command) {
    return push(command, "...\n", 4) ? CONFSTORE_OK : CONFSTORE_NO_MEMORY;
}

/* Conditions. */

/* Writes a number as a text. */
static enum confstore_status write_count(struct confstore_bytes *to, uint64_t count) {
    char digits[20];
    size_t at = sizeof digits;
    do digits[--at] = (char)('0' + count % 10);
    while ((count /= 10) > 0);
    return write_pair(to, FIRST_OF_EDIT, "count", digits + at, sizeof digits - at);
}

/* Whether the bytes are what follows the key of an answer: the rest of its line, or whole lines that are indented. */
static bool is_value(const char *value, size_t length) {
    if (length == 0 || value[length - 1] != '\n' || value[0] == '\n') return false;
    for (size_t at = 0; at < length;) {
        const char *feed = memchr(value + at, '\n', length - at);
        size_t end = (size_t)(feed - value);
        bool is_deeper = end - at >= 2 && value[at] == ' ' && value[at + 1] == ' ';
        if (end > at && !is_deeper && (at > 0 || value[0] == ' ')) return false;
        at = end + 1;
    }
    return true;
}

/* Writes the value of an answer as that of a condition: each whole line of it is indented by as much more as the lines
 * of a condition are. */
static enum confstore_status write_value(struct confstore_bytes *to, const char *value, size_t length) {
    static const char KEY[] = OTHER_OF_EDIT "value:";
    size_t before = to->length;
    if (!is_value(value, length)) return CONFSTORE_NOT_IN_STYLE;
    bool is_done = push(to, KEY, sizeof KEY - 1) && push_byte(to, value[0] == ' ' ? '\n' : ' ');
    for (size_t at = 0; is_done && at < length;) {
        size_t end = (size_t)((const char *)memchr(value + at, '\n', length - at) - value);
        bool is_whole = end > at && value[at] == ' ';
        is_done = (!is_whole || push_spaces(to, strlen(OTHER_OF_EDIT))) && push(to, value + at, end + 1 - at);
        at = end + 1;
    }
    return written(to, before, is_done);
}

static enum confstore_status write_condition(struct confstore_bytes *to, const struct confstore_condition *condition) {
    const struct confstore_part *name = &condition->name, *path = &condition->path, *value = &condition->value;
    if (condition->kind == CONFSTORE_IF_COUNT) return write_count(to, condition->count);
    const char *word = condition->kind == CONFSTORE_IF_ABSENT ? "absent" : "test";
    enum confstore_status status = write_pair(to, FIRST_OF_EDIT, word, name->data, name->length);
    if (status == CONFSTORE_OK) status = write_pair(to, OTHER_OF_EDIT, "path", path->data, path->length);
    if (status != CONFSTORE_OK || condition->kind == CONFSTORE_IF_ABSENT) return status;
    if (condition->kind == CONFSTORE_IF_VALUE) return write_value(to, value->data, value->length);
    return write_pair(to, OTHER_OF_EDIT, "value", value->data, value->length);
}

/* Makes the bytes the start of a command with conditions, and with a line after them. */
static enum confstore_status begin_when(struct confstore_bytes *command, const struct confstore_condition *conditions,
                                        size_t count, const char *line) {
    static const char START[] = "---\n", IF[] = "if:\n";
    size_t before = command->length;
    bool is_done = push(command, START, sizeof START - 1) && (count == 0 || push(command, IF, sizeof IF - 1));
    enum confstore_status status = is_done ? CONFSTORE_OK : CONFSTORE_NO_MEMORY;
    for (size_t number = 0; status == CONFSTORE_OK && number < count; number++)
        status = write_condition(command, &conditions[number]);
    if (status == CONFSTORE_OK && !push(command, line, strlen(line))) status = CONFSTORE_NO_MEMORY;
    size_t length = command->length - before;
    command->length = before;
    if (status == CONFSTORE_OK) {
        memmove(command->data, command->data + before, length);
        command->length = length;
    }
    return status;
}

enum confstore_status confstore_begin_when(struct confstore_bytes *command,
                                           const struct confstore_condition *conditions, size_t count) {
    return begin_when(command, conditions, count, "");
}

enum confstore_status confstore_begin_batch_when(struct confstore_bytes *command,
                                                 const struct confstore_condition *conditions, size_t count) {
    return begin_when(command, conditions, count, "batch:\n");
}

/* Abouts. */

/* The line before an about, and the start of each of its own. */
#define ABOUT "about:\n"
#define OF_ABOUT "  "

enum confstore_status confstore_write_about(struct confstore_bytes *command, const struct confstore_pair *pairs,
                                            size_t count) {
    size_t before = command->length;
    bool is_begun = count == 0 || push(command, ABOUT, strlen(ABOUT));
    enum confstore_status status = is_begun ? CONFSTORE_OK : CONFSTORE_NO_MEMORY;
    for (size_t at = 0; status == CONFSTORE_OK && at < count; at++)
        status = write_pair(command, OF_ABOUT, pairs[at].key, pairs[at].text, pairs[at].length);
    if (status != CONFSTORE_OK) command->length = before;
    return status;
}

/* Reading texts. */

/* Writes a character in UTF-8. */
static bool push_character(struct confstore_bytes *to, uint32_t number) {
    if (number < 0x80) return push_byte(to, (char)number);
    char bytes[3];
    size_t size = number < 0x800 ? 2 : 3;
    bytes[0] = (char)(size == 2 ? 0xc0 | number >> 6 : 0xe0 | number >> 12);
    if (size == 3) bytes[1] = (char)(0x80 | (number >> 6 & 0x3f));
    bytes[size - 1] = (char)(0x80 | (number & 0x3f));
    return push(to, bytes, size);
}

/* The number that hexadecimal digits spell, or -1. */
static int32_t hexadecimal(const char *digits, size_t count) {
    int32_t number = 0;
    for (size_t at = 0; at < count; at++) {
        char digit = digits[at];
        if (digit >= '0' && digit <= '9') number = number * 16 + (digit - '0');
        else if (digit >= 'A' && digit <= 'F') number = number * 16 + (digit - 'A' + 10);
        else return -1;
    }
    return number;
}

/* Reads what is between double quotes. */
static enum confstore_status read_quoted(const char *written, size_t length, struct confstore_bytes *to) {
    for (size_t at = 0; at < length; at++) {
        char byte = written[at];
        if (byte == '"' || byte == '\n') return CONFSTORE_NOT_SCALAR;
        if (byte != '\\') {
            if (!push_byte(to, byte)) return CONFSTORE_NO_MEMORY;
            continue;
        }
        if (++at == length) return CONFSTORE_NOT_SCALAR;
        const char *found = memchr(ESCAPES, written[at], sizeof ESCAPES - 1);
        int32_t number = found ? (unsigned char)ESCAPED[found - ESCAPES] : -1;
        if (!found) {
            size_t digits = written[at] == 'x' ? 2 : written[at] == 'u' ? 4 : 0;
            if (digits == 0 || digits >= length - at) return CONFSTORE_NOT_SCALAR;
            number = hexadecimal(written + at + 1, digits);
            if (number < 0 || (number >= 0xd800 && number < 0xe000)) return CONFSTORE_NOT_SCALAR;
            at += digits;
        }
        if (!push_character(to, (uint32_t)number)) return CONFSTORE_NO_MEMORY;
    }
    return CONFSTORE_OK;
}

/* Reads the lines after a header; `sign` is that of the header, or a line feed. The lines end in a line feed. */
static enum confstore_status read_lines(const char *written, size_t length, char sign, struct confstore_bytes *to) {
    size_t start = to->length, margin = 0;
    while (margin < length && written[margin] == ' ') margin++;
    if (margin == 0 || margin == length || written[margin] == '\n') return CONFSTORE_NOT_SCALAR;
    for (size_t at = 0; at < length;) {
        const char *feed = memchr(written + at, '\n', length - at);
        size_t end = feed ? (size_t)(feed - written) : length;
        if (end > at) {
            for (size_t space = 0; space < margin; space++)
                if (at + space >= end || written[at + space] != ' ') return CONFSTORE_NOT_SCALAR;
            if (!push(to, written + at + margin, end - at - margin)) return CONFSTORE_NO_MEMORY;
        }
        if (!push_byte(to, '\n')) return CONFSTORE_NO_MEMORY;
        at = end + 1;
    }
    size_t ends = 0;
    while (ends < to->length - start && to->data[to->length - 1 - ends] == '\n') ends++;
    if (sign == '+' ? ends < 2 : ends != 1) return CONFSTORE_NOT_SCALAR;
    if (sign == '-') to->length--;
    return CONFSTORE_OK;
}

static enum confstore_status read_scalar(const char *written, size_t length, struct confstore_bytes *to) {
    if (length >= 3 && written[0] == '|') {
        size_t header = written[1] == '\n' ? 1 : 2;
        char sign = written[1];
        if ((header == 2 && sign != '-' && sign != '+') || written[header] != '\n') return CONFSTORE_NOT_SCALAR;
        return read_lines(written + header + 1, length - header - 1, sign, to);
    }
    if (length > 0 && written[length - 1] == '\n') length--;
    if (length >= 2 && written[0] == '"' && written[length - 1] == '"') return read_quoted(written + 1, length - 2, to);
    if (!is_word(written, length)) return CONFSTORE_NOT_SCALAR;
    return push(to, written, length) ? CONFSTORE_OK : CONFSTORE_NO_MEMORY;
}

enum confstore_status confstore_read_text(const char *written, size_t length, struct confstore_bytes *to) {
    size_t before = to->length;
    enum confstore_status status = read_scalar(written, length, to);
    for (size_t at = before, size; status == CONFSTORE_OK && at < to->length; at += size) {
        uint32_t number;
        size = character(to->data + at, to->length - at, &number);
        if (size == 0) status = CONFSTORE_NOT_TEXT;
    }
    if (status != CONFSTORE_OK) to->length = before;
    return status;
}

/* Answers. */

static bool is_same(const char *text, size_t length, const char *other) {
    return length == strlen(other) && !memcmp(text, other, length);
}

/* Reads a count in double quotes, with its line feed. */
static bool read_count(const char *value, size_t length, uint64_t *count) {
    if (length < 4 || value[0] != '"' || value[length - 2] != '"' || value[length - 1] != '\n') return false;
    return read_digits(value + 1, length - 3, count);
}

enum confstore_status confstore_read_answer(const char *answer, size_t length, struct confstore_answer *said) {
    static const struct {
        const char *key;
        enum confstore_said kind;
    } KEYS[] = {
        {"ok:", CONFSTORE_SAID_OK},     {"refused:", CONFSTORE_SAID_REFUSED}, {"value:", CONFSTORE_SAID_VALUE},
        {"text:", CONFSTORE_SAID_TEXT}, {"names:", CONFSTORE_SAID_NAMES},
    };
    if (length < 9 || memcmp(answer, "---\n", 4) || memcmp(answer + length - 5, "\n...\n", 5))
        return CONFSTORE_BAD_ANSWER;
    const char *body = answer + 4;
    size_t left = length - 8;
    for (size_t number = 0; number < sizeof KEYS / sizeof *KEYS; number++) {
        size_t key = strlen(KEYS[number].key);
        if (left < key + 2 || memcmp(body, KEYS[number].key, key) || (body[key] != ' ' && body[key] != '\n')) continue;
        *said = (struct confstore_answer){KEYS[number].kind, 0, body + key + 1, left - key - 1};
        if (said->kind == CONFSTORE_SAID_OK && !read_count(said->value, said->length, &said->count))
            return CONFSTORE_BAD_ANSWER;
        if (said->kind == CONFSTORE_SAID_REFUSED && !is_word(said->value, --said->length)) return CONFSTORE_BAD_ANSWER;
        if (said->kind == CONFSTORE_SAID_REFUSED && is_same(said->value, said->length, "Unmet"))
            said->kind = CONFSTORE_SAID_UNMET;
        return CONFSTORE_OK;
    }
    return CONFSTORE_BAD_ANSWER;
}

/* Records. */

/* The place behind a line. */
static const char *after_line(const char *line, const char *end) {
    const char *feed = memchr(line, '\n', (size_t)(end - line));
    return feed ? feed + 1 : end;
}

/* Whether a line is empty, or behind more than so many spaces. */
static bool is_deeper(const char *line, const char *end, size_t margin) {
    if (*line == '\n') return true;
    size_t spaces = 0;
    while (spaces <= margin && line + spaces < end && line[spaces] == ' ') spaces++;
    return spaces > margin;
}

/* Takes the start of a line, a key, and what follows it: the rest of the line, and the lines that are deeper. */
static bool take_pair(const char **at, const char *end, const char *start, const char *key,
                      struct confstore_part *value) {
    size_t margin = strlen(start), length = strlen(key);
    const char *line = *at;
    if ((size_t)(end - line) < margin + length + 2 || memcmp(line, start, margin)) return false;
    line += margin;
    if (memcmp(line, key, length) || line[length] != ':') return false;
    line += length + 1;
    if (*line != ' ' && *line != '\n') return false;
    const char *from = line + 1;
    line = *line == ' ' ? after_line(from, end) : from;
    while (line < end && is_deeper(line, end, margin)) line = after_line(line, end);
    *value = (struct confstore_part){from, (size_t)(line - from)};
    *at = line;
    return value->length > 0;
}

/* Takes what stands before the edits of a record: its number, and the word of a batch. */
static bool take_head(const char **at, const char *end) {
    static const char BATCH[] = "batch:\n";
    struct confstore_part number;
    if (end - *at >= 4 && !memcmp(*at, "---\n", 4)) *at += 4;
    if (!take_pair(at, end, "", "at", &number)) return false;
    if ((size_t)(end - *at) >= sizeof BATCH && !memcmp(*at, BATCH, sizeof BATCH - 1)) *at += sizeof BATCH - 1;
    return *at < end;
}

/* Takes an edit, whose first line has a start of its own. */
static bool take_edit(const char **at, const char *end, const char *first, const char *other,
                      struct confstore_edit *edit) {
    static const struct confstore_part NO_PATH = {"\"\"\n", 3}, NO_VALUE = {NULL, 0};
    static const struct {
        enum confstore_edit_kind kind;
        const char *word, *path, *value;
    } FORMS[] = {
        {CONFSTORE_EDIT_IMPORT, "import", NULL, "tree"},
        {CONFSTORE_EDIT_SET, "set", "path", "value"},
        {CONFSTORE_EDIT_DELETE, "delete", "path", NULL},
    };
    for (size_t number = 0; number < sizeof FORMS / sizeof *FORMS; number++) {
        *edit = (struct confstore_edit){FORMS[number].kind, {NULL, 0}, NO_PATH, NO_VALUE};
        if (!take_pair(at, end, first, FORMS[number].word, &edit->name)) continue;
        if (FORMS[number].path && !take_pair(at, end, other, FORMS[number].path, &edit->path)) return false;
        return !FORMS[number].value || take_pair(at, end, other, FORMS[number].value, &edit->value);
    }
    return false;
}

/* The place behind a scalar of one line: a word that a sign ends, or what is in double quotes. NULL: there is none. */
static const char *after_scalar(const char *at, const char *end, char sign) {
    const char *from = at;
    bool is_quoted = at < end && *at == '"';
    if (is_quoted) at++;
    while (at < end && *at != (is_quoted ? '"' : sign)) at += is_quoted && *at == '\\' ? 2 : 1;
    if (at >= end) return NULL;
    if (is_quoted) return at + 1;
    return is_word(from, (size_t)(at - from)) ? at : NULL;
}

/* Takes a pair of an about: a key, and a text as its value, which is no collection. */
static bool take_about_pair(const char **at, const char *end, struct confstore_about_pair *pair) {
    size_t margin = strlen(OF_ABOUT);
    const char *line = *at, *next = after_line(line, end);
    if ((size_t)(next - line) <= margin || memcmp(line, OF_ABOUT, margin)) return false;
    const char *key = line + margin, *colon = after_scalar(key, next, ':');
    if (!colon || next - colon < 3 || memcmp(colon, ": ", 2)) return false;
    const char *text = colon + 2;
    if (*text != '|' && after_scalar(text, next, '\n') != next - 1) return false;
    while (*text == '|' && next < end && is_deeper(next, end, margin)) next = after_line(next, end);
    *pair = (struct confstore_about_pair){{key, (size_t)(colon - key)}, {text, (size_t)(next - text)}};
    *at = next;
    return next[-1] == '\n';
}

/* Whether an about begins at a place of a record. What is in a value does not, since its lines begin with spaces. */
static bool is_about(const char *at, const char *end) {
    size_t length = strlen(ABOUT);
    return (size_t)(end - at) > length && !memcmp(at, ABOUT, length);
}

/* What is behind the edits of a record: an about, or what the program did not write. */
static enum confstore_status look_at_about(const char *at, const char *end) {
    struct confstore_about_pair pair;
    at += strlen(ABOUT);
    while (at < end)
        if (!take_about_pair(&at, end, &pair)) return CONFSTORE_NOT_IN_STYLE;
    return CONFSTORE_NOTHING_DUE;
}

/* Whether the bytes end as a record does. */
static bool is_closed(const char *record, size_t length) {
    return length >= 4 && !memcmp(record + length - 4, "...\n", 4);
}

enum confstore_status confstore_read_edit(const char *record, size_t length, size_t *place,
                                          struct confstore_edit *edit) {
    if (!is_closed(record, length)) return CONFSTORE_NOT_IN_STYLE;
    if (*place > 0 && *place >= length - 4) return CONFSTORE_NOTHING_DUE;
    const char *end = record + length - 4, *at = record + *place;
    if (*place > 0 && is_about(at, end)) return look_at_about(at, end);
    if (*place == 0 && !take_head(&at, end)) return CONFSTORE_NOT_IN_STYLE;
    size_t margin = strlen(FIRST_OF_EDIT);
    bool is_of_batch = (size_t)(end - at) > margin && !memcmp(at, FIRST_OF_EDIT, margin);
    if (*place > 0 && !is_of_batch) return CONFSTORE_NOT_IN_STYLE;
    const char *first = is_of_batch ? FIRST_OF_EDIT : "", *other = is_of_batch ? OTHER_OF_EDIT : "";
    if (!take_edit(&at, end, first, other, edit)) return CONFSTORE_NOT_IN_STYLE;
    *place = (size_t)(at - record);
    return CONFSTORE_OK;
}

enum confstore_status confstore_read_about(const char *record, size_t length, size_t *place,
                                           struct confstore_about_pair *pair) {
    size_t from = *place;
    enum confstore_status status = from == 0 ? CONFSTORE_OK : CONFSTORE_NOTHING_DUE;
    struct confstore_edit passed;
    while (status == CONFSTORE_OK) status = confstore_read_edit(record, length, &from, &passed);
    if (status != CONFSTORE_NOTHING_DUE) return status;
    if (!is_closed(record, length)) return CONFSTORE_NOT_IN_STYLE;
    if (from >= length - 4) return CONFSTORE_NOTHING_DUE;
    const char *end = record + length - 4, *at = record + from;
    if (is_about(at, end)) at += strlen(ABOUT);
    if (!take_about_pair(&at, end, pair)) return CONFSTORE_NOT_IN_STYLE;
    *place = (size_t)(at - record);
    return CONFSTORE_OK;
}
