// A set of places from 0 to 255.
#pragma once

#include <cstdint>

class PlaceSet {
public:
    void clear() {
        for (uint64_t& word : words_)
            word = 0;
    }
    void add(uint32_t place) { words_[place / 64] |= 1ull << place % 64; }
    void remove(uint32_t place) { words_[place / 64] &= ~(1ull << place % 64); }

    template <class Visit>
    void each(Visit visit) const {
        for (uint32_t k = 0; k < 4; k++)
            for (uint64_t word = words_[k]; word; word &= word - 1)
                visit(k * 64 + (uint32_t)__builtin_ctzll(word));
    }

private:
    uint64_t words_[4] = {0, 0, 0, 0};
};
