#include "debugger/gdb_packets.h"

#include "base/text.h"

namespace {

using Kind = Packet::Kind;

uint8_t sum_of(const std::string& content) {
    uint8_t sum = 0;
    for (unsigned char byte : content)
        sum = (uint8_t)(sum + byte);
    return sum;
}

// Takes an argument apart. What isn't there as it should be makes it malformed.
class Argument {
public:
    explicit Argument(const std::string& text) : text_(text) {}

    // One to sixteen hexadecimal digits, up to the mark, which is dropped, or to the end.
    uint64_t number(char mark) {
        std::string word = up_to(mark);
        if (word.empty() || word.size() > 16) is_well_ = false;
        uint64_t number = 0;
        for (unsigned char character : word) {
            int digit = digit_value(character);
            if (digit < 0) is_well_ = false;
            number = number << 4 | (uint64_t)(digit & 15);
        }
        return number;
    }
    uint64_t last_number() { return number('\0'); }

    // Two digits for each byte, up to the end.
    std::string bytes() {
        std::string bytes;
        if (text_.size() % 2 != 0) is_well_ = false;
        for (size_t place = 0; place + 1 < text_.size(); place += 2) {
            int high = digit_value((unsigned char)text_[place]);
            int low = digit_value((unsigned char)text_[place + 1]);
            if (high < 0 || low < 0) is_well_ = false;
            bytes += (char)(high << 4 | low);
        }
        return bytes;
    }

    void expect(char mark) {
        if (text_.empty() || text_[0] != mark)
            is_well_ = false;
        else
            text_.erase(0, 1);
    }

    Packet or_malformed(Packet packet) const { return is_well_ ? packet : Packet{Kind::Malformed}; }

private:
    std::string text_;
    bool is_well_ = true;

    std::string up_to(char mark) {
        size_t end = mark ? text_.find(mark) : text_.size();
        if (end == std::string::npos) {
            is_well_ = false;
            end = text_.size();
        }
        std::string word = text_.substr(0, end);
        text_.erase(0, mark ? end + 1 : end);
        return word;
    }
};

struct PlainRow {
    const char* text;
    Kind kind;
};

// Packets without an argument.
const PlainRow plain_rows[] = {
    {"?", Kind::Reason},
    {"g", Kind::Registers},
    {"c", Kind::Continue},
    {"s", Kind::Step},
    {"bc", Kind::ContinueBack},
    {"bs", Kind::StepBack},
    {"vCont?", Kind::Actions},
    {"D", Kind::Detach},
    {"k", Kind::Kill},
    {"qSupported", Kind::Supported},
    {"QStartNoAckMode", Kind::NoAcknowledgments},
};

Packet with_numbers(Kind kind, Argument argument) {
    Packet packet{kind};
    packet.first = argument.number(',');
    packet.second = argument.last_number();
    return argument.or_malformed(packet);
}

Packet register_packet(Argument argument) {
    Packet packet{Kind::Register};
    packet.first = argument.last_number();
    return argument.or_malformed(packet);
}

Packet register_write_packet(Argument argument) {
    Packet packet{Kind::WriteRegister};
    packet.first = argument.number('=');
    packet.bytes = argument.bytes();
    return argument.or_malformed(packet);
}

Packet memory_write_packet(Argument argument) {
    Packet packet{Kind::WriteMemory};
    packet.first = argument.number(',');
    packet.second = argument.number(':');
    packet.bytes = argument.bytes();
    return argument.or_malformed(packet);
}

Packet point_packet(const std::string& content) {
    Packet packet{content[0] == 'Z' ? Kind::SetPoint : Kind::ClearPoint};
    Argument argument(content.substr(2));
    packet.point.kind = (unsigned)(content[1] - '0');
    argument.expect(',');
    packet.point.address = argument.number(',');
    packet.point.size = argument.last_number();
    return argument.or_malformed(packet);
}

// The first action; what follows it is for other threads. A signal is ignored.
Packet action_packet(const std::string& actions) {
    std::string action = actions.substr(0, actions.find_first_of(";:"));
    if (action == "c" || (action.size() == 3 && action[0] == 'C')) return Packet{Kind::Continue};
    if (action == "s" || (action.size() == 3 && action[0] == 'S')) return Packet{Kind::Step};
    if (!action.empty() && action[0] == 'r')
        return with_numbers(Kind::StepRange, Argument(action.substr(1)));
    return Packet{Kind::Malformed};
}

Packet monitor_packet(Argument argument) {
    Packet packet{Kind::Monitor};
    packet.bytes = argument.bytes();
    return argument.or_malformed(packet);
}

// What stands behind a text, where a content begins with it.
std::optional<std::string> behind(const std::string& text, const std::string& content) {
    if (content.compare(0, text.size(), text) != 0) return std::nullopt;
    return content.substr(text.size());
}

}  // namespace

std::string framed(const std::string& content) {
    return "$" + content + formatted("#%02x", sum_of(content));
}

std::string little_digits(uint32_t value) {
    std::string bytes;
    add_little_endian(bytes, value, 4);
    return hexadecimal(bytes);
}

Packet read_packet(const std::string& content) {
    if (content.size() > content_limit) return Packet{Kind::Unknown};
    for (const PlainRow& row : plain_rows)
        if (content == row.text) return Packet{row.kind};
    bool has_kind = content.size() >= 2 && content[1] >= '0' && content[1] <= '4';
    if (has_kind && (content[0] == 'Z' || content[0] == 'z')) return point_packet(content);
    if (auto rest = behind("p", content)) return register_packet(Argument(*rest));
    if (auto rest = behind("P", content)) return register_write_packet(Argument(*rest));
    if (auto rest = behind("m", content)) return with_numbers(Kind::Memory, Argument(*rest));
    if (auto rest = behind("M", content)) return memory_write_packet(Argument(*rest));
    if (auto rest = behind("vCont;", content)) return action_packet(*rest);
    if (auto rest = behind("qXfer:features:read:target.xml:", content))
        return with_numbers(Kind::Description, Argument(*rest));
    if (auto rest = behind("qRcmd,", content)) return monitor_packet(Argument(*rest));
    if (behind("qSupported:", content)) return Packet{Kind::Supported};
    return Packet{Kind::Unknown};
}

std::optional<Arrival> PacketStream::take(uint8_t byte) {
    switch (place_) {
        case Place::Outside:
            if (byte != '$') return std::nullopt;
            place_ = Place::Content;
            content_.clear();
            return std::nullopt;
        case Place::Content:
            if (byte == '$')
                content_.clear();
            else if (byte == '#')
                place_ = Place::First;
            else
                content_ += (char)byte;
            return std::nullopt;
        case Place::First:
            high_digit_ = byte;
            place_ = Place::Second;
            return std::nullopt;
        default: break;
    }
    place_ = Place::Outside;
    int high = digit_value(high_digit_), low = digit_value(byte);
    bool is_whole = high >= 0 && low >= 0 && (high << 4 | low) == sum_of(content_);
    return Arrival{content_, is_whole};
}
