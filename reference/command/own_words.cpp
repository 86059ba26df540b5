// Words that only this program takes: they make files for it and for `fast`, or show its parts.
#include <cstdio>
#include <cstdlib>

#include "base/text.h"
#include "command/commands.h"
#include "debugger/gdb_draw.h"
#include "files/soak.h"
#include "files/toml.h"
#include "insight/disassembly.h"

namespace {

std::vector<std::string> split_at(const std::string& text, char mark) {
    std::vector<std::string> parts;
    for (size_t place = 0;;) {
        size_t end = text.find(mark, place);
        parts.push_back(text.substr(place, end == std::string::npos ? end : end - place));
        if (end == std::string::npos) return parts;
        place = end + 1;
    }
}

uint32_t hexadecimal_word(const std::string& text) {
    return (uint32_t)strtoul(text.c_str(), nullptr, 16);
}

// ADDRESS:FLAGS:WORD,WORD,..[:SIZE]; bit 0 of the flags is executable.
Segment read_segment(const std::string& text, uint32_t index) {
    std::vector<std::string> fields = split_at(text, ':');
    if (fields.size() < 3) internal_fault("a segment is ADDRESS:FLAGS:WORD,WORD,..[:SIZE]");
    Segment segment{index, hexadecimal_word(fields[0]), 0, (atoi(fields[1].c_str()) & 1) != 0, ""};
    if (!fields[2].empty())
        for (const std::string& word : split_at(fields[2], ','))
            add_little_endian(segment.bytes, hexadecimal_word(word), 4);
    segment.size = fields.size() > 3 ? (uint32_t)strtoul(fields[3].c_str(), nullptr, 0)
                                     : (uint32_t)segment.bytes.size();
    return segment;
}

// mkelf FILE ENTRY SEGMENT..
int make_image(const Words& words) {
    Image image;
    image.entry = hexadecimal_word(words[2]);
    for (size_t k = 3; k < words.size(); k++)
        image.segments.push_back(read_segment(words[k], (uint32_t)(k - 3)));
    write_file(words[1], image_bytes(image));
    return 0;
}

// soakimage SEED BLOCKS FILE
int make_soak_image(const Words& words) {
    uint64_t seed = strtoull(words[1].c_str(), nullptr, 10);
    uint32_t blocks = (uint32_t)strtoul(words[2].c_str(), nullptr, 10);
    write_file(words[3], image_bytes(soak_image(seed, blocks)));
    return 0;
}

// packets SEED COUNT IMAGE [options of gdb]: drawn packets for a session.
int draw_packets(const Words& words) {
    Words session{"gdb"};
    session.insert(session.end(), words.begin() + 3, words.end());
    auto line = read_line(session);
    if (!line) internal_fault("the words are: packets SEED COUNT IMAGE [options of gdb]");
    Setup setup;
    setup.cycles = line->cycles;
    setup.output = line->output;
    if (line->input) setup.input = read_file(*line->input, "input", ~0ull);
    setup.image = read_image(read_file(line->names[0], "image", ~0ull), setup.parameters.ram_base,
                             setup.parameters.ram_size);
    uint64_t seed = strtoull(words[1].c_str(), nullptr, 10);
    return write_out(drawn_packets(setup, seed, (unsigned)atoi(words[2].c_str())))
               ? 0
               : status::write_fault;
}

// toml FILE: whether it is TOML.
int tell_toml(const Words& words) {
    try {
        read_toml(read_file(words[1], "machine", ~0ull));
        puts("ok");
    } catch (NotToml&) {
        puts("not toml");
    }
    return 0;
}

// disasm FILE: the texts of words, each of which stands on a line behind its address.
int disassemble(const Words& words) {
    for (const std::string& line : split_at(read_file(words[1], "words", ~0ull), '\n')) {
        unsigned address, word;
        if (sscanf(line.c_str(), "%x %x", &address, &word) == 2)
            printf("%08x %s\n", address, word_text(address, word).c_str());
    }
    return 0;
}

}  // namespace

std::optional<int> answer_own_words(const Words& words) {
    if (words.empty()) return std::nullopt;
    const std::string& command = words[0];
    if (command == "mkelf" && words.size() >= 3) return make_image(words);
    if (command == "soakimage" && words.size() == 4) return make_soak_image(words);
    if (command == "packets" && words.size() >= 4) return draw_packets(words);
    if (command == "toml" && words.size() == 2) return tell_toml(words);
    if (command == "disasm" && words.size() == 2) return disassemble(words);
    return std::nullopt;
}
