// Packets of gdb's remote protocol.
// Definitions: crates/gdb_packets/specs/Hexadecimal.antt, Frame.antt, Packet.antt, Stream.antt.
#pragma once

#include <cstdint>
#include <optional>
#include <string>

// A packet may hold so many bytes.
constexpr size_t content_limit = 4096;

// `$`, the content, `#` and the sum of its bytes in two digits.
std::string framed(const std::string& content);

// A value of 32 bits in digits, the lowest byte first.
std::string little_digits(uint32_t value);

struct Point {
    unsigned kind;  // 0 and 1 break; 2 watches stores, 3 loads, 4 both
    uint64_t address, size;

    bool breaks() const { return kind < 2; }
    bool watches(bool is_store) const { return kind == 4 || kind == (is_store ? 2 : 3); }
    bool operator==(const Point& other) const {
        return kind == other.kind && address == other.address && size == other.size;
    }
};

struct Packet {
    enum class Kind {
        Reason,
        Registers,
        Register,
        WriteRegister,
        Memory,
        WriteMemory,
        Actions,
        Continue,
        Step,
        StepRange,
        ContinueBack,
        StepBack,
        SetPoint,
        ClearPoint,
        Detach,
        Kill,
        Supported,
        NoAcknowledgments,
        Description,
        Monitor,
        Unknown,
        Malformed,
    };

    Kind kind;
    uint64_t first = 0, second = 0;  // numbers, in the order in which they stand
    std::string bytes = "";
    Point point{0, 0, 0};
};

// What a content asks for.
Packet read_packet(const std::string& content);

// A packet that came, and whether its sum is right.
struct Arrival {
    std::string content;
    bool is_whole;
};

// The bytes that a debugger sends, one after the other.
class PacketStream {
public:
    // The packet that ends with a byte, if one does.
    std::optional<Arrival> take(uint8_t byte);

private:
    enum class Place { Outside, Content, First, Second };
    Place place_ = Place::Outside;
    std::string content_;
    uint8_t high_digit_ = 0;
};
