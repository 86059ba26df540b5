// TOML: values, and a reader of whole files (https://toml.io/en/v1.1.0).
#pragma once

#include <cstdint>
#include <map>
#include <string>
#include <vector>

struct NotToml {};

struct TomlValue {
    enum class Kind : uint8_t { Integer, Float, Text, Boolean, Time, Array, Table };

    Kind kind = Kind::Table;
    int64_t integer = 0;
    std::string text;
    std::vector<TomlValue> items;
    std::map<std::string, TomlValue> entries;
    bool has_header = false;  // a table that a [header] of its own names
    bool is_dotted = false;   // a table that a dotted key made
    bool is_closed = false;   // an inline table or a static array: nothing can be added

    bool is_table() const { return kind == Kind::Table; }
};

// The table that a whole file is, or NotToml is thrown.
TomlValue read_toml(const std::string& bytes);
