// Packets drawn for a run, to compare two programs that read them.
#pragma once

#include <string>

#include "hart/state.h"

// So many packets, of which some are malformed or damaged, or stand between noise. They speak of
// addresses and positions of the run.
std::string drawn_packets(const Setup& setup, uint64_t seed, unsigned count);
