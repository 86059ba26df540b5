#include "base/text.h"

#include <cstdarg>
#include <cstdio>
#include <cstdlib>

std::string formatted(const char* pattern, ...) {
    char buffer[512];
    va_list arguments;
    va_start(arguments, pattern);
    int length = vsnprintf(buffer, sizeof buffer, pattern, arguments);
    va_end(arguments);
    if (length < 0 || length >= (int)sizeof buffer) internal_fault("a text is too long");
    return std::string(buffer, (size_t)length);
}

void internal_fault(const char* pattern, ...) {
    va_list arguments;
    va_start(arguments, pattern);
    fprintf(stderr, "reference: internal: ");
    vfprintf(stderr, pattern, arguments);
    fprintf(stderr, "\n");
    va_end(arguments);
    exit(99);
}

int digit_value(int character) {
    if (character >= '0' && character <= '9') return character - '0';
    if (character >= 'a' && character <= 'f') return character - 'a' + 10;
    if (character >= 'A' && character <= 'F') return character - 'A' + 10;
    return -1;
}

std::string hexadecimal(const std::string& bytes) {
    static const char digits[] = "0123456789abcdef";
    std::string text;
    for (unsigned char byte : bytes) {
        text += digits[byte >> 4];
        text += digits[byte & 15];
    }
    return text;
}

bool read_number(const std::string& word, uint64_t lowest, uint64_t highest, uint64_t& number) {
    if (word.empty() || word.size() > 20) return false;
    unsigned __int128 value = 0;
    for (char character : word) {
        if (character < '0' || character > '9') return false;
        value = value * 10 + (unsigned)(character - '0');
    }
    if (value < lowest || value > highest) return false;
    number = (uint64_t)value;
    return true;
}

uint32_t little_endian(const std::string& bytes, uint64_t place, unsigned count) {
    uint32_t number = 0;
    for (unsigned k = count; k-- > 0;)
        number = number << 8 | (uint8_t)bytes[place + k];
    return number;
}

void add_little_endian(std::string& text, uint32_t number, unsigned count) {
    for (unsigned k = 0; k < count; k++)
        text += (char)(number >> (8 * k));
}

// How many bytes follow the first one of a character, and the bits that the first one gives.
static bool first_of_character(unsigned char byte, int& more, uint32_t& code) {
    if (byte < 0x80)
        more = 0, code = byte;
    else if (byte >= 0xC2 && byte <= 0xDF)
        more = 1, code = byte & 0x1F;
    else if (byte >= 0xE0 && byte <= 0xEF)
        more = 2, code = byte & 0x0F;
    else if (byte >= 0xF0 && byte <= 0xF4)
        more = 3, code = byte & 0x07;
    else
        return false;
    return true;
}

bool is_utf8(const std::string& bytes) {
    for (size_t place = 0; place < bytes.size();) {
        int more;
        uint32_t code;
        if (!first_of_character((unsigned char)bytes[place++], more, code)) return false;
        for (int k = 0; k < more; k++) {
            if (place >= bytes.size()) return false;
            unsigned char byte = (unsigned char)bytes[place++];
            if ((byte & 0xC0) != 0x80) return false;
            code = code << 6 | (byte & 0x3F);
        }
        if (more == 2 && code < 0x800) return false;
        if (more == 3 && (code < 0x10000 || code > 0x10FFFF)) return false;
        if (code >= 0xD800 && code <= 0xDFFF) return false;
    }
    return true;
}
