#include "debugger/gdb_draw.h"

#include <cinttypes>
#include <vector>

#include "base/text.h"
#include "debugger/gdb_packets.h"
#include "debugger/gdb_positions.h"
#include "files/soak.h"

namespace {

constexpr uint64_t most_positions = 20000;

class PacketDraws {
public:
    PacketDraws(const Setup& setup, uint64_t seed) : positions_(setup), draws_(seed, 3) {
        while (length_ + 1 < most_positions && !positions_.at(length_).end)
            length_++;
        is_quiet_ = draws_.below(4) > 0;
    }

    std::string draw(unsigned count) {
        std::string bytes = is_quiet_ ? framed("QStartNoAckMode") : "+";
        for (unsigned k = 0; k < count; k++)
            bytes += sent(content());
        return bytes;
    }

private:
    Positions positions_;
    uint64_t length_ = 0;  // the last position that is looked at
    Draws draws_;
    std::vector<Point> points_;
    bool is_quiet_;

    template <size_t size>
    const char* one_of(const char* const (&texts)[size]) {
        return texts[draws_.below(size)];
    }

    uint64_t position() { return draws_.below((uint32_t)length_ + 1); }

    // A packet as bytes, sometimes with a wrong sum, or with noise before it.
    std::string sent(const std::string& content) {
        static const char* const noise[] = {"+", "-", "\x03", "$?", "##", "x", ""};
        std::string bytes = framed(content);
        if (draws_.below(24) == 0) bytes = one_of(noise) + bytes;
        if (draws_.below(32) == 0) bytes.back() = bytes.back() == '0' ? '1' : '0';
        return bytes;
    }

    std::string content() {
        switch (draws_.below(22)) {
            case 0:
            case 1: return draws_.below(2) ? "c" : "vCont;c";
            case 2: return draws_.below(2) ? "s" : "vCont;s:1;c";
            case 3:
            case 4: return "bc";
            case 5: return "bs";
            case 6: return range_step();
            case 7:
            case 8: return new_point();
            case 9:
            case 10: return cleared_point();
            case 11: return monitor(formatted("stop %" PRIu64, position()));
            case 12: return csr();
            case 13: return near_access();
            case 14: return device_bytes();
            case 15: return write_back();
            case 16: return odd_packet();
            case 17: return monitor_word();
            case 18: return description();
            case 19: return "?";
            default: return draws_.below(2) ? "g" : monitor("where");
        }
    }

    std::string monitor(const std::string& command) { return "qRcmd," + hexadecimal(command); }

    std::string range_step() {
        uint32_t address = positions_.at(position()).next_address & ~15u;
        return formatted("vCont;r%x,%x", address, address + 4 * draws_.below(16));
    }

    // A watchpoint over an access of the run, or a breakpoint.
    std::string new_point() {
        Point point{draws_.below(2), positions_.at(position()).next_address, 4};
        for (int k = 0; k < 200 && draws_.below(3) > 0; k++) {
            const Position& here = positions_.at(position());
            if (here.access == Reach::Nothing) continue;
            uint64_t address = (uint64_t)here.address - draws_.below(3);
            point = Point{2 + draws_.below(3), address, 1 + draws_.below(8)};
            break;
        }
        points_.push_back(point);
        return point_packet('Z', point);
    }

    std::string cleared_point() {
        if (points_.empty()) return "?";
        uint32_t place = draws_.below((uint32_t)points_.size());
        Point point = points_[place];
        points_.erase(points_.begin() + place);
        return point_packet('z', point);
    }

    static std::string point_packet(char letter, const Point& point) {
        return formatted("%c%u,%" PRIx64 ",%" PRIx64, letter, point.kind, point.address,
                         point.size);
    }

    std::string csr() {
        static const uint32_t csrs[] = {0x300, 0x304, 0x305, 0x341, 0x342, 0x344,
                                        0xB00, 0xB02, 0xC01, 0xF11, 0x123};
        return formatted("p%x", 65 + csrs[draws_.below(11)]);
    }

    std::string near_access() {
        const Position& here = positions_.at(position());
        uint32_t address = here.access == Reach::Nothing ? 0x80fffff0 : here.address & ~7u;
        return formatted("m%x,%x", address, 8 + draws_.below(24));
    }

    std::string device_bytes() {
        static const uint32_t addresses[] = {0x10000000, 0x10000003, 0x02004000,
                                             0x0200bff8, 0x00100000, 0x0};
        uint32_t address = addresses[draws_.below(6)];
        return formatted("m%x,%x", address, 1 + draws_.below(9));
    }

    // A write, mostly of what may be there already.
    std::string write_back() {
        uint32_t count = draws_.below(3);
        if (draws_.below(2)) return formatted("P%x=%08x", draws_.below(40), count);
        uint32_t address = positions_.at(position()).next_address;
        return formatted("M%x,%x:", address, count) + std::string(2 * count, '0');
    }

    std::string odd_packet() {
        static const char* const odd[] = {
            "p",
            "pg",
            "p21",
            "P0=",
            "P0=0",
            "m0",
            "m,4",
            "m80000000,",
            "M0,1",
            "Z0",
            "Z5,0,4",
            "z1,0",
            "vCont;",
            "vCont;x",
            "vCont;r1",
            "vCont;C05",
            "vCont;S5",
            "vCont?",
            "qRcmd,",
            "qRcmd,7",
            "qRcmd,zz",
            "D",
            "k",
            "H0",
            "qSupported:swbreak+",
            "qSupported",
            "X80000000,0:",
            "QStartNoAckMode",
            "m0000000080000000,1",
            "m00000000080000000,1",
            "p0000000000000020",
        };
        return one_of(odd);
    }

    std::string monitor_word() {
        static const char* const words[] = {"output",
                                            "stop",
                                            "stop x",
                                            "help",
                                            "stop 18446744073709551616",
                                            "stop 000000000000000000007",
                                            "stop  1",
                                            "where "};
        return monitor(one_of(words));
    }

    std::string description() {
        uint32_t place = draws_.below(4200);
        return formatted("qXfer:features:read:target.xml:%x,%x", place, draws_.below(5000));
    }
};

}  // namespace

std::string drawn_packets(const Setup& setup, uint64_t seed, unsigned count) {
    return PacketDraws(setup, seed).draw(count);
}
