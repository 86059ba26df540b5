// Images: programs as ELF files. Definitions: crates/elf_image/specs/Fields.antt, Image.antt,
// Write.antt.
#pragma once

#include <cstdint>
#include <string>
#include <vector>

struct Segment {
    uint32_t index;  // among the load headers of the file
    uint32_t address, size;
    bool is_executable;
    std::string bytes;  // the first ones; all further bytes up to the size are 0
};

struct Image {
    uint32_t entry = 0;
    std::vector<Segment> segments;
};

// Why bytes are no image, as the line of a refusal says it.
struct ImageFault {
    std::string text;
};

// Reads an image for RAM from `base` on, or throws its first fault.
Image read_image(const std::string& bytes, uint32_t base, uint32_t size);

// The bytes that hold an image.
std::string image_bytes(const Image& image);
