// Strings of TOML: basic and literal ones, on one line and on many; parts of keys.
#include "base/text.h"
#include "files/toml_source.h"

namespace {

void add_character(std::string& text, uint32_t code) {
    if (code > 0x10FFFF || (code >= 0xD800 && code <= 0xDFFF)) throw NotToml();
    if (code < 0x80) {
        text += (char)code;
        return;
    }
    int more = code < 0x800 ? 1 : code < 0x10000 ? 2 : 3;
    static const unsigned char first[] = {0, 0xC0, 0xE0, 0xF0};
    text += (char)(first[more] | code >> (6 * more));
    for (int k = more; k-- > 0;)
        text += (char)(0x80 | (code >> (6 * k) & 63));
}

// Behind the backslash.
void read_escape(TomlSource& source, std::string& text) {
    int letter = source.next();
    switch (letter) {
        case 'b': text += '\b'; return;
        case 't': text += '\t'; return;
        case 'n': text += '\n'; return;
        case 'f': text += '\f'; return;
        case 'r': text += '\r'; return;
        case 'e': text += '\x1B'; return;
        case '"': text += '"'; return;
        case '\\': text += '\\'; return;
        case 'x':
        case 'u':
        case 'U': break;
        default: throw NotToml();
    }
    uint64_t code = 0;
    for (int k = 0; k < (letter == 'x' ? 2 : letter == 'u' ? 4 : 8); k++) {
        int digit = digit_value(source.next());
        if (digit < 0) throw NotToml();
        code = code << 4 | (unsigned)digit;
    }
    if (code > 0x10FFFF) throw NotToml();
    add_character(text, (uint32_t)code);
}

// On one line, from its quote on.
std::string read_line(TomlSource& source, bool has_escapes) {
    int quote = source.next();
    std::string text;
    for (;;) {
        int character = source.next();
        if (character < 0 || is_control(character)) throw NotToml();
        if (character == quote) return text;
        if (character == '\\' && has_escapes)
            read_escape(source, text);
        else
            text += (char)character;
    }
}

// Quotes in a string of many lines: three end it, and two more before them belong to it.
bool ends_at_quotes(TomlSource& source, int quote, std::string& text) {
    size_t count = 0;
    while (source.peek(count) == quote)
        count++;
    if (count > 5) throw NotToml();
    source.skip(count);
    bool ends = count >= 3;
    text.append(ends ? count - 3 : count, (char)quote);
    return ends;
}

// A backslash at the end of a line, which drops the space up to the next character.
bool skip_line_end(TomlSource& source) {
    size_t place = source.place();
    source.skip_blanks();
    if (!source.skip_newline()) {
        source.go_to(place);
        return false;
    }
    do
        source.skip_blanks();
    while (source.skip_newline());
    return true;
}

// On many lines, from its three quotes on.
std::string read_lines(TomlSource& source, bool has_escapes) {
    int quote = source.peek();
    source.skip(3);
    source.skip_newline();
    std::string text;
    for (;;) {
        if (source.peek() == quote) {
            if (ends_at_quotes(source, quote, text)) return text;
        } else if (source.skip_newline()) {
            text += '\n';
        } else if (source.peek() == '\\' && has_escapes) {
            source.skip(1);
            if (!skip_line_end(source)) read_escape(source, text);
        } else {
            int character = source.next();
            if (character < 0 || is_control(character)) throw NotToml();
            text += (char)character;
        }
    }
}

}  // namespace

std::string read_toml_string(TomlSource& source) {
    int quote = source.peek();
    bool has_lines = source.peek(1) == quote && source.peek(2) == quote;
    return has_lines ? read_lines(source, quote == '"') : read_line(source, quote == '"');
}

std::string read_toml_key_part(TomlSource& source) {
    if (source.peek() == '"') return read_line(source, true);
    if (source.peek() == '\'') return read_line(source, false);
    size_t place = source.place();
    while (is_bare(source.peek()))
        source.skip(1);
    if (source.place() == place) throw NotToml();
    return source.since(place);
}
