// The text of a word, as GNU objdump writes it with -M no-aliases,numeric; targets are absolute.
// Definitions: crates/disassembly/specs/Mnemonic.antt, CsrName.antt, Text.antt.
#pragma once

#include <cstdint>
#include <string>

std::string word_text(uint32_t address, uint32_t word);
