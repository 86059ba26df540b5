#include "files/image.h"

#include "base/text.h"

namespace {

constexpr uint32_t header_size = 52, load_header_size = 32;

void test_header(const std::string& bytes) {
    if (bytes.size() < header_size) throw ImageFault{"short"};
    if (bytes.compare(0, 4,
                      "\x7f"
                      "ELF") != 0)
        throw ImageFault{"magic"};
    if (bytes[4] != 1) throw ImageFault{"class"};
    if (bytes[5] != 1) throw ImageFault{"endian"};
    if (little_endian(bytes, 16, 2) != 2) throw ImageFault{"file type"};
    if (little_endian(bytes, 18, 2) != 243) throw ImageFault{"machine"};
}

// The segment of the load header at a place; `segments` are those of the headers before it.
Segment read_segment(const std::string& bytes, uint64_t place, uint32_t index, uint32_t base,
                     uint32_t size, const std::vector<Segment>& segments) {
    uint64_t offset = little_endian(bytes, place + 4, 4);
    uint64_t address = little_endian(bytes, place + 12, 4);
    uint64_t file_size = little_endian(bytes, place + 16, 4);
    uint64_t memory_size = little_endian(bytes, place + 20, 4);
    uint32_t flags = little_endian(bytes, place + 24, 4);
    if (offset + file_size > bytes.size()) throw ImageFault{formatted("file outside %u", index)};
    if (file_size > memory_size) throw ImageFault{formatted("larger %u", index)};
    Segment segment{index, (uint32_t)address, (uint32_t)memory_size, (flags & 1) != 0, ""};
    if (memory_size == 0) return segment;
    if (address < base || address + memory_size > (uint64_t)base + size)
        throw ImageFault{formatted("outside ram %u", index)};
    for (const Segment& other : segments)
        if (address < (uint64_t)other.address + other.size && other.address < address + memory_size)
            throw ImageFault{formatted("overlap %u %u", index, other.index)};
    segment.bytes = bytes.substr(offset, file_size);
    return segment;
}

}  // namespace

Image read_image(const std::string& bytes, uint32_t base, uint32_t size) {
    test_header(bytes);
    uint32_t table = little_endian(bytes, 28, 4);
    uint32_t entry_size = little_endian(bytes, 42, 2), count = little_endian(bytes, 44, 2);
    if (count > 0 && entry_size != load_header_size) throw ImageFault{"entry size"};
    if (count > 64) throw ImageFault{formatted("count %u", count)};
    if (count > 0 && (uint64_t)table + (uint64_t)load_header_size * count > bytes.size())
        throw ImageFault{"table outside"};
    Image image;
    image.entry = little_endian(bytes, 24, 4);
    for (uint32_t index = 0; index < count; index++) {
        uint64_t place = table + (uint64_t)load_header_size * index;
        if (little_endian(bytes, place, 4) != 1) continue;
        Segment segment = read_segment(bytes, place, index, base, size, image.segments);
        if (segment.size > 0) image.segments.push_back(segment);
    }
    return image;
}

std::string image_bytes(const Image& image) {
    uint32_t count = (uint32_t)image.segments.size();
    std::string text(
        "\x7f"
        "ELF\x01\x01\x01",
        7);
    text.resize(16, '\0');
    auto half = [&](uint32_t number) { add_little_endian(text, number, 2); };
    auto word = [&](uint32_t number) { add_little_endian(text, number, 4); };
    half(2);
    half(243);
    for (uint32_t number : {1u, image.entry, header_size, 0u, 0u})
        word(number);
    for (uint32_t number : {header_size, load_header_size, count, 0u, 0u, 0u})
        half(number);
    uint32_t place = header_size + load_header_size * count;
    for (const Segment& segment : image.segments) {
        uint32_t length = (uint32_t)segment.bytes.size(), flags = segment.is_executable ? 5 : 6;
        for (uint32_t number :
             {1u, place, segment.address, segment.address, length, segment.size, flags, 4u})
            word(number);
        place += length;
    }
    for (const Segment& segment : image.segments)
        text += segment.bytes;
    return text;
}
