// RAM, and the text that fetch reads: the executable bytes as they were when fetch was last made
// to see memory. Definitions: crates/phys_mem/specs/Ram.antt, Fetch.antt;
// crates/elf_image/specs/Load.antt; crates/mono_model/specs/Arch.antt (synced), Result.antt
// (spot_of).
#pragma once

#include <cstdint>
#include <cstdlib>
#include <cstring>
#include <memory>

#include "files/image.h"
#include "hart/cause.h"
#include "hart/devices.h"

// Bytes that are 0 at first. Pages that nobody touches cost nothing.
class Bytes {
public:
    explicit Bytes(size_t size = 0);
    uint8_t& operator[](size_t place) { return bytes_.get()[place]; }
    const uint8_t& operator[](size_t place) const { return bytes_.get()[place]; }
    bool operator==(const Bytes& other) const;

private:
    size_t size_;
    std::unique_ptr<uint8_t, decltype(&free)> bytes_;
};

// Whether an access can be made where it lies: a device has to accept it.
inline bool is_accepted(Spot spot, uint32_t address, uint8_t width) {
    if (spot == Spot::Device) return accepts(*device_at(address), width);
    return spot == Spot::Ram;
}

class Memory {
public:
    // Fresh memory with an image in it.
    void open(uint32_t base, uint32_t size, const Image& image);

    // The word of text at a multiple of four.
    bool fetch(uint32_t address, uint32_t& word) const {
        uint32_t place = address - base_;
        if (place >= size_ || place < text_begin_ || place >= text_end_) return false;
        uint32_t marks;
        memcpy(&marks, &marks_[place - text_begin_], 4);
        if (marks != 0x01010101u) return false;
        memcpy(&word, &text_[place - text_begin_], 4);
        return true;
    }

    // How many pages hold a word of text.
    uint32_t text_pages() const;

    bool has(uint32_t address) const { return address - base_ < size_; }
    uint8_t byte(uint32_t address) const { return ram_[address - base_]; }

    // Aligned accesses of RAM.
    uint32_t load(uint32_t address, uint8_t width) const {
        uint32_t value = 0;
        memcpy(&value, &ram_[address - base_], width);
        return value;
    }
    void store(uint32_t address, uint8_t width, uint32_t value);

    // Where an access lies: a misaligned one nowhere.
    Spot spot(uint32_t address, uint8_t width) const {
        if (address & (width - 1u)) return Spot::Nowhere;
        if (has(address)) return Spot::Ram;
        return device_at(address) ? Spot::Device : Spot::Nowhere;
    }

    // Fetch sees memory as it stands.
    void synchronise();

    bool has_same_ram(const Memory& other) const { return ram_ == other.ram_; }
    bool has_same_text(const Memory& other) const { return text_ == other.text_; }

private:
    uint32_t base_ = 0, size_ = 0;
    uint32_t text_begin_ = 0, text_end_ = 0;  // places in RAM between which all text lies
    uint32_t changed_begin_ = 0xFFFFFFFFu, changed_end_ = 0;  // places stored to since the text was
    Bytes ram_, text_, marks_;                                // a mark is 1 where there is text
};
