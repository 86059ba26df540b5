// Texts: numbers written into them, hexadecimal digits, and numbers read from words.
#pragma once

#include <cstdint>
#include <string>

// A text made as printf makes it.
std::string formatted(const char* pattern, ...) __attribute__((format(printf, 1, 2)));

// Ends the program with status 99: a self-check failed, so that no answer can be trusted.
[[noreturn]] void internal_fault(const char* pattern, ...) __attribute__((format(printf, 1, 2)));

// The value of a hexadecimal digit of either case, or -1.
int digit_value(int character);

// Two lower-case digits for each byte.
std::string hexadecimal(const std::string& bytes);

// A number as words write it: one to twenty decimal digits, in a range.
// Definition: crates/fast_cli/specs/Number.antt.
bool read_number(const std::string& word, uint64_t lowest, uint64_t highest, uint64_t& number);

bool is_utf8(const std::string& bytes);

// A number of so many bytes at a place, the lowest byte first.
uint32_t little_endian(const std::string& bytes, uint64_t place, unsigned count);

// A number added to a text as so many bytes, the lowest byte first.
void add_little_endian(std::string& text, uint32_t number, unsigned count);
