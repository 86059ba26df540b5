#include "files/toml_source.h"

#include <cstring>

bool TomlSource::skip_if(int character) {
    if (peek() != character) return false;
    skip(1);
    return true;
}

void TomlSource::expect(int character) {
    if (!skip_if(character)) throw NotToml();
}

bool TomlSource::has(const char* text) const {
    return bytes_.compare(place_, strlen(text), text) == 0;
}

void TomlSource::skip_blanks() {
    while (peek() == ' ' || peek() == '\t')
        skip(1);
}

bool TomlSource::skip_newline() {
    if (skip_if('\n')) return true;
    if (peek() != '\r' || peek(1) != '\n') return false;
    skip(2);
    return true;
}

void TomlSource::skip_comment() {
    if (!skip_if('#')) return;
    while (!is_at_end() && peek() != '\n' && !(peek() == '\r' && peek(1) == '\n'))
        if (is_control(next())) throw NotToml();
}

void TomlSource::skip_space() {
    for (;;) {
        skip_blanks();
        if (peek() == '#')
            skip_comment();
        else if (!skip_newline())
            return;
    }
}

bool is_bare(int character) {
    return (character >= 'A' && character <= 'Z') || (character >= 'a' && character <= 'z') ||
           (character >= '0' && character <= '9') || character == '_' || character == '-';
}
