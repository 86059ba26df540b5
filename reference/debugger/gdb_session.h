// A session of gdb, read literally: each reply is found by looking along the positions of the run.
// Definitions: crates/gdb_model/specs/Session.antt, Stops.antt, Answer.antt, Talk.antt.
#pragma once

#include <functional>
#include <optional>
#include <string>
#include <vector>

#include "debugger/gdb_packets.h"
#include "debugger/gdb_positions.h"

class GdbSession {
public:
    GdbSession(const Setup& setup, uint64_t history) : history_(history), positions_(setup) {}

    // What is written of a byte that came.
    std::string take(uint8_t byte);

private:
    // The addresses within which a run goes on.
    using Range = std::function<bool(uint32_t)>;

    uint64_t history_;
    Positions positions_;
    PacketStream stream_;
    uint64_t at_ = 0, floor_ = 0;  // the position, and the oldest one to go back to
    std::vector<Point> points_;
    std::optional<uint64_t> mark_;  // a position at which runs stop
    uint64_t shown_ = 0;            // bytes of output
    bool is_quiet_ = false;         // no acknowledgments are wanted

    std::string play(const Packet& packet);

    std::string forth(const Range& range);
    std::string back(const Range& range);
    bool is_stop(const Range& range, uint64_t position);
    std::optional<uint64_t> watched(uint64_t position);
    void move_to(uint64_t position);
    std::string new_output(uint64_t position);

    std::string registers();
    std::string register_digits(uint64_t number);
    bool has_register(uint64_t number, const std::string& bytes);
    std::string memory_bytes(uint64_t address, uint64_t count);
    bool set_point(const Point& point);
    void clear_point(const Point& point);
    std::string monitor(const std::string& command);
    std::string where_line();
};

// The description that gdb reads of the target. Definition:
// crates/gdb_model/specs/Description.antt.
std::string gdb_target_description();
