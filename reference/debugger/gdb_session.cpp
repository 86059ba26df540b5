#include "debugger/gdb_session.h"

#include <algorithm>
#include <cinttypes>

#include "base/text.h"

namespace {

constexpr size_t piece_size = 2047;  // of text in a packet, two digits a byte behind an `O`
constexpr uint64_t memory_limit = 2048, description_limit = 4095;
constexpr size_t points_limit = 256;

const std::string good = "OK", bad = "E01";

std::string reply_if(bool holds) {
    return framed(holds ? good : bad);
}

// A text that gdb shows.
std::string shown_text(const std::string& text) {
    std::string packets;
    for (size_t place = 0; place < text.size(); place += piece_size)
        packets += framed("O" + hexadecimal(text.substr(place, piece_size)));
    return packets;
}

std::string watch_reply(uint64_t byte) {
    return framed(formatted("T05watch:%" PRIx64 ";", byte));
}

bool all_addresses(uint32_t) {
    return true;
}
bool no_address(uint32_t) {
    return false;
}

}  // namespace

std::string GdbSession::take(uint8_t byte) {
    auto arrival = stream_.take(byte);
    if (!arrival) return "";
    if (!is_quiet_ && !arrival->is_whole) return "-";
    std::string acknowledgment = is_quiet_ ? "" : "+";
    return acknowledgment + play(read_packet(arrival->content));
}

std::string GdbSession::play(const Packet& packet) {
    using Kind = Packet::Kind;
    switch (packet.kind) {
        case Kind::Reason: return framed("T05");
        case Kind::Registers: return framed(registers());
        case Kind::Register: return framed(register_digits(packet.first));
        case Kind::WriteRegister: return reply_if(has_register(packet.first, packet.bytes));
        case Kind::Memory: {
            std::string bytes = memory_bytes(packet.first, std::min(packet.second, memory_limit));
            return framed(bytes.empty() ? bad : hexadecimal(bytes));
        }
        case Kind::WriteMemory:
            return reply_if(packet.bytes.size() == packet.second &&
                            memory_bytes(packet.first, packet.second) == packet.bytes);
        case Kind::Actions: return framed("vCont;c;C;s;S;r");
        case Kind::Continue: return forth(all_addresses);
        case Kind::Step: return forth(no_address);
        case Kind::StepRange:
            return forth([&](uint32_t address) {
                return packet.first <= address && address < packet.second;
            });
        case Kind::ContinueBack: return back(all_addresses);
        case Kind::StepBack: return back(no_address);
        case Kind::SetPoint: return reply_if(set_point(packet.point));
        case Kind::ClearPoint: clear_point(packet.point); return framed(good);
        case Kind::Detach: return framed(good);
        case Kind::Kill: return "";
        case Kind::Supported:
            return framed(
                "PacketSize=1000;QStartNoAckMode+;qXfer:features:read+;ReverseStep+;"
                "ReverseContinue+");
        case Kind::NoAcknowledgments: is_quiet_ = true; return framed(good);
        case Kind::Description: {
            std::string text = gdb_target_description();
            uint64_t place = std::min<uint64_t>(packet.first, text.size());
            std::string part = text.substr(place, std::min(packet.second, description_limit));
            return framed((place + part.size() == text.size() ? "l" : "m") + part);
        }
        case Kind::Monitor: return shown_text(monitor(packet.bytes)) + framed(good);
        case Kind::Unknown: return framed("");
        default: return framed(bad);
    }
}

// ---- where runs stop

bool GdbSession::is_stop(const Range& range, uint64_t position) {
    uint32_t address = positions_.at(position).next_address;
    auto breaks = [&](const Point& point) { return point.breaks() && point.address == address; };
    return std::any_of(points_.begin(), points_.end(), breaks) || mark_ == position ||
           !range(address);
}

// A watched byte that the step at a position loads or stores: of each watchpoint the first one, and
// the greatest of these.
std::optional<uint64_t> GdbSession::watched(uint64_t position) {
    const Position& here = positions_.at(position);
    std::optional<uint64_t> greatest;
    if (here.access == Reach::Nothing) return greatest;
    for (const Point& point : points_) {
        if (point.breaks() || !point.watches(here.access == Reach::Store)) continue;
        for (uint64_t byte = here.address; byte < (uint64_t)here.address + here.width; byte++) {
            if (byte < point.address || byte - point.address >= point.size) continue;
            if (!greatest || byte > *greatest) greatest = byte;
            break;
        }
    }
    return greatest;
}

std::string GdbSession::forth(const Range& range) {
    for (uint64_t position = at_;; position++) {
        std::string reply;
        if (position > at_ && is_stop(range, position)) {
            reply = framed("T05");
        } else if (auto end = positions_.at(position).end) {
            std::string output = positions_.output(position);
            bool is_open = !output.empty() && output.back() != '\n';
            reply = shown_text((is_open ? "\nfast: " : "fast: ") + end->text() + "\n") +
                    framed("T05replaylog:end;");
        } else if (auto byte = watched(position)) {
            reply = watch_reply(*byte);
        } else {
            continue;
        }
        std::string output = new_output(position);
        move_to(position);
        return output + reply;
    }
}

std::string GdbSession::back(const Range& range) {
    for (uint64_t position = at_;; position--) {
        std::string reply;
        if (position < at_ && is_stop(range, position)) {
            reply = framed("T05");
        } else if (position == floor_) {
            reply = framed("T05replaylog:begin;");
        } else if (auto byte = watched(position - 1)) {
            reply = watch_reply(*byte);
        } else {
            continue;
        }
        at_ = position;
        return reply;
    }
}

// Each step raises the floor as in crates/back_debug/specs/Debugger.antt.
void GdbSession::move_to(uint64_t position) {
    for (; at_ < position; at_++) {
        uint64_t after = at_ + 1;
        if (positions_.at(at_).is_fence_i)
            floor_ = after;
        else if (after > history_)
            floor_ = std::max(floor_, after - history_);
    }
}

// Output is shown once.
std::string GdbSession::new_output(uint64_t position) {
    std::string output = positions_.output(position);
    if (output.size() <= shown_) return "";
    std::string text = shown_text(output.substr(shown_));
    shown_ = output.size();
    return text;
}

// ---- registers, memory, points

std::string GdbSession::registers() {
    std::string digits;
    for (uint64_t number = 0; number <= 32; number++)
        digits += register_digits(number);
    return digits;
}

std::string GdbSession::register_digits(uint64_t number) {
    auto value = positions_.register_value(at_, number);
    return value ? little_digits(*value) : bad;
}

bool GdbSession::has_register(uint64_t number, const std::string& bytes) {
    auto value = positions_.register_value(at_, number);
    return value && hexadecimal(bytes) == little_digits(*value);
}

// So many bytes, or up to the first that isn't there.
std::string GdbSession::memory_bytes(uint64_t address, uint64_t count) {
    std::string bytes;
    for (uint64_t k = 0; k < count && address + k >= address; k++) {
        auto byte = positions_.byte(at_, address + k);
        if (!byte) break;
        bytes += (char)*byte;
    }
    return bytes;
}

bool GdbSession::set_point(const Point& point) {
    if (std::find(points_.begin(), points_.end(), point) != points_.end()) return true;
    if (points_.size() == points_limit) return false;
    points_.push_back(point);
    return true;
}

void GdbSession::clear_point(const Point& point) {
    points_.erase(std::remove(points_.begin(), points_.end(), point), points_.end());
}

// ---- commands for the monitor

std::string GdbSession::where_line() {
    auto end = positions_.at(at_).end;
    return formatted("step %" PRIu64 ", oldest %" PRIu64 ", output %zu bytes, ", at_, floor_,
                     positions_.output(at_).size()) +
           end.value_or(Ending()).text() + "\n";
}

std::string GdbSession::monitor(const std::string& command) {
    uint64_t position;
    if (command == "where") return where_line();
    if (command == "output") return positions_.output(at_);
    if (command == "stop") {
        mark_.reset();
    } else if (command.compare(0, 5, "stop ") == 0 &&
               read_number(command.substr(5), 0, ~0ull, position)) {
        mark_ = position;
    } else {
        return "monitor where, output, stop, stop N\n";
    }
    return "";
}
