#include "hart/memory.h"

#include <algorithm>

#include "base/text.h"

Bytes::Bytes(size_t size) : size_(size), bytes_((uint8_t*)calloc(size, 1), free) {
    if (size > 0 && !bytes_) internal_fault("there is not enough memory");
}

bool Bytes::operator==(const Bytes& other) const {
    return size_ == other.size_ &&
           std::equal(bytes_.get(), bytes_.get() + size_, other.bytes_.get());
}

void Memory::open(uint32_t base, uint32_t size, const Image& image) {
    base_ = base;
    size_ = size;
    ram_ = Bytes(size);
    bool has_text = false;
    for (const Segment& segment : image.segments) {
        uint32_t place = segment.address - base;
        if (!segment.bytes.empty())
            memcpy(&ram_[place], segment.bytes.data(), segment.bytes.size());
        if (!segment.is_executable) continue;
        uint32_t begin = place & ~3u, end = (place + segment.size + 3) & ~3u;
        text_begin_ = has_text ? std::min(text_begin_, begin) : begin;
        text_end_ = has_text ? std::max(text_end_, end) : end;
        has_text = true;
    }
    text_ = Bytes(text_end_ - text_begin_);
    marks_ = Bytes(text_end_ - text_begin_);
    for (const Segment& segment : image.segments)
        if (segment.is_executable)
            memset(&marks_[segment.address - base - text_begin_], 1, segment.size);
    changed_begin_ = text_begin_;
    changed_end_ = text_end_;
    synchronise();
}

uint32_t Memory::text_pages() const {
    constexpr uint32_t page_size = 4096;
    uint32_t pages = 0;
    for (uint32_t page = text_begin_ & ~(page_size - 1); page < text_end_; page += page_size) {
        uint32_t word;
        uint32_t place = page;
        while (place < page + page_size && !fetch(base_ + place, word)) place += 4;
        pages += place < page + page_size;
    }
    return pages;
}

void Memory::store(uint32_t address, uint8_t width, uint32_t value) {
    uint32_t place = address - base_;
    memcpy(&ram_[place], &value, width);
    changed_begin_ = std::min(changed_begin_, place);
    changed_end_ = std::max(changed_end_, place + width);
}

void Memory::synchronise() {
    uint32_t begin = std::max(changed_begin_, text_begin_), end = std::min(changed_end_, text_end_);
    for (uint32_t place = begin; place < end; place++)
        if (marks_[place - text_begin_]) text_[place - text_begin_] = ram_[place];
    changed_begin_ = 0xFFFFFFFFu;
    changed_end_ = 0;
}
