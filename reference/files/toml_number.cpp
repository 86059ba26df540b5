// Numbers, dates and times of TOML.
#include "base/text.h"
#include "files/toml_source.h"

namespace {

bool is_digit(int character) {
    return character >= '0' && character <= '9';
}

int character_at(const std::string& text, size_t place) {
    return place < text.size() ? (unsigned char)text[place] : -1;
}

// The number of two digits, or -1.
int two_digits(const std::string& text, size_t place) {
    if (!is_digit(character_at(text, place)) || !is_digit(character_at(text, place + 1))) return -1;
    return (text[place] - '0') * 10 + (text[place + 1] - '0');
}

// How long a run of digits with single underscores between them is; 0 where there is none.
size_t digits_length(const std::string& text, size_t from, int base) {
    auto is_one = [&](size_t place) {
        int value = digit_value(character_at(text, place));
        return value >= 0 && value < base;
    };
    size_t place = from;
    for (;; place++) {
        if (is_one(place)) continue;
        if (character_at(text, place) != '_' || place == from || text[place - 1] == '_') break;
        if (!is_one(place + 1)) return 0;
    }
    return place - from;
}

// The number that digits write, or more than the most.
unsigned __int128 digits_number(const std::string& text, size_t from, size_t to, unsigned base,
                                unsigned __int128 most) {
    unsigned __int128 number = 0;
    for (size_t place = from; place < to && number <= most; place++)
        if (text[place] != '_')
            number = number * base + (unsigned)digit_value((unsigned char)text[place]);
    return number;
}

TomlValue integer_value(int64_t integer) {
    TomlValue value;
    value.kind = TomlValue::Kind::Integer;
    value.integer = integer;
    return value;
}

TomlValue float_value() {
    TomlValue value;
    value.kind = TomlValue::Kind::Float;
    return value;
}

// 0x, 0o and 0b.
TomlValue prefixed_number(const std::string& text) {
    unsigned base = text[1] == 'x' ? 16 : text[1] == 'o' ? 8 : 2;
    if (digits_length(text, 2, (int)base) != text.size() - 2) throw NotToml();
    auto number = digits_number(text, 2, text.size(), base, INT64_MAX);
    if (number > INT64_MAX) throw NotToml();
    return integer_value((int64_t)number);
}

// What follows the whole part of a float.
void test_fraction(const std::string& text, size_t place) {
    size_t begin = place;
    if (character_at(text, place) == '.') {
        size_t length = digits_length(text, place + 1, 10);
        if (length == 0) throw NotToml();
        place += 1 + length;
    }
    if (character_at(text, place) == 'e' || character_at(text, place) == 'E') {
        place++;
        if (character_at(text, place) == '+' || character_at(text, place) == '-') place++;
        size_t length = digits_length(text, place, 10);
        if (length == 0) throw NotToml();
        place += length;
    }
    if (place == begin || place != text.size()) throw NotToml();
}

TomlValue decimal_number(const std::string& text) {
    bool has_sign = text[0] == '+' || text[0] == '-', is_negative = text[0] == '-';
    size_t begin = has_sign ? 1 : 0;
    std::string unsigned_text = text.substr(begin);
    if (unsigned_text == "inf" || unsigned_text == "nan") return float_value();
    size_t length = digits_length(text, begin, 10);
    if (length == 0 || (length > 1 && text[begin] == '0')) throw NotToml();
    if (begin + length < text.size()) {
        test_fraction(text, begin + length);
        return float_value();
    }
    unsigned __int128 most = (unsigned __int128)INT64_MAX + (is_negative ? 1 : 0);
    auto number = digits_number(text, begin, text.size(), 10, most);
    if (number > most) throw NotToml();
    return integer_value(is_negative ? (int64_t)(0 - (uint64_t)number) : (int64_t)number);
}

bool begins_with_date(const std::string& text) {
    return text.size() >= 10 && two_digits(text, 0) >= 0 && two_digits(text, 2) >= 0 &&
           text[4] == '-' && text[7] == '-';
}

bool is_date(const std::string& text) {
    int year = two_digits(text, 0) * 100 + two_digits(text, 2);
    int month = two_digits(text, 5), day = two_digits(text, 8);
    static const int lengths[] = {31, 28, 31, 30, 31, 30, 31, 31, 30, 31, 30, 31};
    if (month < 1 || month > 12 || day < 1) return false;
    bool is_leap = (year % 4 == 0 && year % 100 != 0) || year % 400 == 0;
    return day <= lengths[month - 1] + (month == 2 && is_leap ? 1 : 0);
}

// The place behind hours and minutes and, if they are there, seconds and their fraction; or 0.
size_t time_end(const std::string& text, size_t place) {
    int hour = two_digits(text, place), minute = two_digits(text, place + 3);
    if (character_at(text, place + 2) != ':' || hour < 0 || hour > 23 || minute < 0 || minute > 59)
        return 0;
    place += 5;
    if (character_at(text, place) != ':') return place;
    int second = two_digits(text, place + 1);
    if (second < 0 || second > 59) return 0;
    place += 3;
    if (character_at(text, place) != '.') return place;
    size_t begin = ++place;
    while (is_digit(character_at(text, place)))
        place++;
    return place == begin ? 0 : place;
}

bool is_offset(const std::string& text, size_t place) {
    if (text[place] == 'Z' || text[place] == 'z') return place + 1 == text.size();
    if (text[place] != '+' && text[place] != '-') return false;
    int hour = two_digits(text, place + 1), minute = two_digits(text, place + 4);
    return text.size() == place + 6 && text[place + 3] == ':' && hour >= 0 && hour <= 23 &&
           minute >= 0 && minute <= 59;
}

bool looks_like_time(const std::string& text) {
    bool is_dated =
        text.size() >= 10 && two_digits(text, 0) >= 0 && two_digits(text, 2) >= 0 && text[4] == '-';
    return is_dated || (text.size() >= 5 && is_digit(text[0] & 0xFF) && text[2] == ':');
}

}  // namespace

bool is_toml_time(const std::string& text) {
    size_t place = 0;
    bool has_date = begins_with_date(text);
    if (has_date) {
        if (!is_date(text)) return false;
        if (text.size() == 10) return true;
        if (text[10] != 'T' && text[10] != 't' && text[10] != ' ') return false;
        place = 11;
    }
    place = time_end(text, place);
    if (place == 0) return false;
    if (place == text.size()) return true;
    return has_date && is_offset(text, place);
}

TomlValue read_toml_number(TomlSource& source) {
    size_t begin = source.place();
    auto skip_word = [&]() {
        while (is_bare(source.peek()) || source.peek() == '+' || source.peek() == '.' ||
               source.peek() == ':')
            source.skip(1);
    };
    skip_word();
    std::string text = source.since(begin);
    // Between a date and a time one blank may stand.
    if (text.size() == 10 && text[4] == '-' && text[7] == '-' && source.peek() == ' ' &&
        is_digit(source.peek(1))) {
        source.skip(1);
        skip_word();
        text = source.since(begin);
    }
    if (text.empty()) throw NotToml();
    if (looks_like_time(text)) {
        if (!is_toml_time(text)) throw NotToml();
        TomlValue value;
        value.kind = TomlValue::Kind::Time;
        return value;
    }
    bool has_prefix =
        text.size() > 2 && text[0] == '0' && (text[1] == 'x' || text[1] == 'o' || text[1] == 'b');
    return has_prefix ? prefixed_number(text) : decimal_number(text);
}
