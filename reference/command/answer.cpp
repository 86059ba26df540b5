#include "command/answer.h"

#include <fcntl.h>
#include <unistd.h>

#include <cerrno>
#include <cinttypes>
#include <cstdio>
#include <vector>

#include "base/text.h"

namespace {

// A file that is closed at the end of its life.
struct OpenFile {
    int number;
    ~OpenFile() { close(number); }
};

}  // namespace

std::string read_file(const std::string& name, const char* role, uint64_t limit) {
    OpenFile file{open(name.c_str(), O_RDONLY | O_CLOEXEC)};
    if (file.number < 0) {
        if (errno == ENOENT) throw Refusal{status::missing, std::string("missing: ") + role};
        throw Refusal{status::read_fault, std::string("read fault: ") + role};
    }
    std::string bytes;
    std::vector<char> buffer(1 << 16);
    for (;;) {
        ssize_t count = read(file.number, buffer.data(), buffer.size());
        if (count < 0 && errno == EINTR) continue;
        if (count < 0) throw Refusal{status::read_fault, std::string("read fault: ") + role};
        if (count == 0) return bytes;
        bytes.append(buffer.data(), (size_t)count);
        if (bytes.size() > limit)
            throw Refusal{status::too_long, formatted("too long: %s %" PRIu64, role, limit)};
    }
}

void write_file(const std::string& name, const std::string& bytes) {
    FILE* file = fopen(name.c_str(), "wb");
    if (!file || fwrite(bytes.data(), 1, bytes.size(), file) != bytes.size() || fclose(file) != 0)
        internal_fault("%s can't be written", name.c_str());
}

bool write_out(const std::string& bytes) {
    for (size_t place = 0; place < bytes.size();) {
        ssize_t count = write(STDOUT_FILENO, bytes.data() + place, bytes.size() - place);
        if (count < 0 && errno == EINTR) continue;
        if (count <= 0) return false;
        place += (size_t)count;
    }
    return true;
}
