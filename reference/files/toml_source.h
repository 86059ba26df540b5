// Inside the reader of TOML: where it stands in a file.
#pragma once

#include <string>

#include "files/toml.h"

class TomlSource {
public:
    explicit TomlSource(const std::string& bytes) : bytes_(bytes) {}

    bool is_at_end() const { return place_ >= bytes_.size(); }

    // The character so many further, or -1 behind the end.
    int peek(size_t further = 0) const {
        return place_ + further < bytes_.size() ? (unsigned char)bytes_[place_ + further] : -1;
    }
    int next() {
        int character = peek();
        skip(1);
        return character;
    }
    void skip(size_t count) { place_ += count; }
    bool skip_if(int character);
    void expect(int character);

    // Whether a text stands here.
    bool has(const char* text) const;

    size_t place() const { return place_; }
    void go_to(size_t place) { place_ = place; }
    std::string since(size_t place) const { return bytes_.substr(place, place_ - place); }

    void skip_blanks();
    bool skip_newline();
    void skip_comment();
    // Blanks, line feeds and comments.
    void skip_space();

private:
    const std::string& bytes_;
    size_t place_ = 0;
};

// A control character that may stand nowhere but in an escape.
inline bool is_control(int character) {
    return (character >= 0 && character < 32 && character != '\t') || character == 127;
}

// A character of a bare key.
bool is_bare(int character);

// Strings of all four forms, and the parts of keys.
std::string read_toml_string(TomlSource& source);
std::string read_toml_key_part(TomlSource& source);

// Numbers, dates and times.
TomlValue read_toml_number(TomlSource& source);
bool is_toml_time(const std::string& text);
