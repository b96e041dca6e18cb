// The reader of shift logs written plainly; a peer to compare speeds with. A stream of logs on standard input, each a byte `c`, its length
// in four bytes and its bytes; a line on each, as `log check` has it, on standard output.
//
//     g++ -O2 -std=c++17 log_peer.cpp -o log_peer

#include <cstddef>
#include <cstdint>
#include <cstdio>
#include <optional>
#include <vector>

namespace {

constexpr std::size_t kTableEnd = 25;
constexpr std::uint64_t kMostLog = 65536;
constexpr std::uint64_t kMostOpenings = 16;
constexpr unsigned kFlows = 16;
constexpr unsigned kMostDeadline = 4096;
constexpr unsigned kMostWeight = 16;
constexpr unsigned kMostLength = 1500;

// A refusal of a log: its number and its place.
struct Fault {
    int number;
    std::size_t place;
};

// The bytes of one log, and a pass over them that stops at the first fault.
class Reader {
public:
    Reader(const std::uint8_t* bytes, std::size_t length) : bytes_(bytes), length_(length) {}

    std::optional<Fault> fault() {
        if (length_ == 0) return Fault{23, 0};
        if (bytes_[0] != 1 && bytes_[0] != 2) return Fault{20, 0};
        std::uint64_t start = kTableEnd;
        for (int body = 0; body < 3; ++body) {
            if (auto found = entry(body, start)) return found;
            start += stated_[body];
        }
        std::size_t at = kTableEnd;
        if (auto found = openings(at, stated_[0], kMostDeadline)) return found;
        at += stated_[0];
        if (auto found = openings(at, stated_[1], kMostWeight)) return found;
        at += stated_[1];
        if (auto found = events(at, stated_[2])) return found;
        at += stated_[2];
        if (length_ > at) return Fault{24, at};
        return std::nullopt;
    }

    // How many records a body has, of a log without fault.
    unsigned count(int body) const { return stated_[body] / (body == 2 ? 4 : 3); }

private:
    // One entry of the table, of a body that has to start at this place.
    std::optional<Fault> entry(int body, std::uint64_t start) {
        const std::size_t at = 1 + 8 * static_cast<std::size_t>(body);
        if (length_ < at + 4) return Fault{23, length_};
        if (field(at) != start) return Fault{21, at};
        if (length_ < at + 8) return Fault{23, length_};
        const std::uint64_t stated = field(at + 4);
        const bool wrong = body == 2 ? stated % 4 != 0 || start + stated > kMostLog : stated % 3 != 0 || stated > 3 * kMostOpenings;
        if (wrong) return Fault{21, at + 4};
        stated_[body] = static_cast<std::uint32_t>(stated);
        return std::nullopt;
    }

    std::optional<Fault> openings(std::size_t at, std::size_t length, unsigned largest) const {
        unsigned least = 0;
        for (const std::size_t end = at + length; at < end; at += 3) {
            if (length_ < at + 3) return Fault{23, length_};
            const unsigned flow = bytes_[at];
            const unsigned number = bytes_[at + 1] + 256u * bytes_[at + 2];
            if (flow < least || flow >= kFlows || number < 1 || number > largest) return Fault{22, at};
            least = flow + 1;
        }
        return std::nullopt;
    }

    std::optional<Fault> events(std::size_t at, std::size_t length) const {
        for (const std::size_t end = at + length; at < end; at += 4) {
            if (length_ < at + 4) return Fault{23, length_};
            if (!good_event(bytes_[at], bytes_[at + 1], bytes_[at + 2] + 256u * bytes_[at + 3])) return Fault{22, at};
        }
        return std::nullopt;
    }

    // A cell has its own deadline in a log of first byte 2, and none in one of first byte 1.
    bool good_event(unsigned kind, unsigned flow, unsigned length) const {
        if (kind == 2) return flow < kFlows && (bytes_[0] == 1 ? length == 0 : length >= 1 && length <= kMostDeadline);
        if (kind == 3) return flow < kFlows && length >= 1 && length <= kMostLength;
        return kind <= 5 && flow == 0 && length == 0;
    }

    std::uint64_t field(std::size_t at) const {
        return bytes_[at] | bytes_[at + 1] << 8 | bytes_[at + 2] << 16 | static_cast<std::uint64_t>(bytes_[at + 3]) << 24;
    }

    const std::uint8_t* bytes_;
    std::size_t length_;
    std::uint32_t stated_[3] = {0, 0, 0};
};

}  // namespace

int main() {
    std::uint8_t head[5];
    std::vector<std::uint8_t> log;
    while (std::fread(head, 1, sizeof head, stdin) == sizeof head && head[0] == 'c') {
        const std::size_t length = head[1] | head[2] << 8 | head[3] << 16 | static_cast<std::size_t>(head[4]) << 24;
        log.resize(length);
        if (std::fread(log.data(), 1, length, stdin) != length) return 1;
        Reader reader(log.data(), length);
        if (const auto found = reader.fault()) {
            std::printf("no %d %zu\n", found->number, found->place);
        } else {
            std::printf("ok %d %u %u %u %zu\n", log[0], reader.count(0), reader.count(1), reader.count(2), length);
        }
    }
    return std::ferror(stdin) || std::fflush(stdout) != 0 || std::ferror(stdout) ? 1 : 0;
}
