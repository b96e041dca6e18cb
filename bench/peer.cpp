// The station's session program written plainly with ordered sets; a peer to
// compare speeds with. Commands on standard input, replies on standard output.
//
//     g++ -O2 -std=c++17 peer.cpp -o peer

#include <algorithm>
#include <charconv>
#include <cstddef>
#include <cstdint>
#include <cstdio>
#include <optional>
#include <set>
#include <string_view>
#include <tuple>

namespace {

constexpr std::uint64_t kFlows = 16;
constexpr std::uint64_t kPlaces = 16;
constexpr std::uint64_t kUnitsPerByte = 720720;
constexpr std::uint64_t kMostDeadline = 4096;
constexpr std::uint64_t kMostWeight = 16;
constexpr std::uint64_t kMostLength = 1500;
constexpr std::uint64_t kTagEnd = 4611686018427387904u;
constexpr std::uint64_t kSlotEnd = 4000000000u;
constexpr std::uint64_t kMostField = 4294967295u;
constexpr std::size_t kMostLine = 32;
constexpr std::size_t kPiece = 64 * 1024;

// Replies gathered and written in large pieces.
class Output {
public:
    void text(std::string_view s) {
        room(s.size());
        used_ = std::copy(s.begin(), s.end(), buffer_ + used_) - buffer_;
    }

    void number(std::uint64_t n) {
        room(20);
        used_ = std::to_chars(buffer_ + used_, buffer_ + kPiece, n).ptr - buffer_;
    }

    // One reply line: a word, then the numbers with a blank before each.
    template <typename... Numbers>
    void line(std::string_view word, Numbers... numbers) {
        text(word);
        ((text(" "), number(numbers)), ...);
        text("\n");
    }

    void flush() {
        std::fwrite(buffer_, 1, used_, stdout);
        used_ = 0;
    }

private:
    void room(std::size_t bytes) {
        if (kPiece - used_ < bytes) flush();
    }

    char buffer_[kPiece];
    std::size_t used_ = 0;
};

// A waiting cell, in the order in which open turns send them.
struct Cell {
    std::uint64_t last;
    std::uint64_t flow;
    std::uint64_t number;

    bool operator<(const Cell& other) const {
        return std::tie(last, flow, number) < std::tie(other.last, other.flow, other.number);
    }
};

// A waiting packet, in the order in which they begin.
struct Packet {
    std::uint64_t start;
    std::uint64_t flow;
    std::uint64_t number;
    std::uint64_t finish;

    bool operator<(const Packet& other) const {
        return std::tie(start, flow, number) < std::tie(other.start, other.flow, other.number);
    }
};

// The lane whose cells go out by their last slot or are missed.
class UrgentLane {
public:
    void open(std::uint64_t flow, std::uint64_t deadline, Output& out) {
        if (flow >= kFlows) return out.line("no", 1u);
        if (flows_[flow].deadline != 0) return out.line("no", 3u);
        if (deadline < 1 || deadline > kMostDeadline) return out.line("no", 14u);
        flows_[flow].deadline = deadline;
        out.line("ok");
    }

    void close(std::uint64_t flow, Output& out) {
        if (flow >= kFlows) return out.line("no", 1u);
        Flow& f = flows_[flow];
        if (f.deadline == 0) return out.line("no", 2u);
        if (f.waiting != 0) return out.line("no", 12u);
        f.deadline = 0;
        out.line("ok");
    }

    void offer(std::uint64_t flow, std::uint64_t deadline, Output& out) {
        if (flow >= kFlows) return out.line("no", 1u);
        Flow& f = flows_[flow];
        if (f.deadline == 0) return out.line("no", 2u);
        if (deadline < 1 || deadline > f.deadline) return out.line("no", 14u);
        if (f.waiting == kPlaces) return out.line("no", 5u);
        if (now_ + deadline > kSlotEnd) return out.line("no", 7u);
        const Cell cell{now_ + deadline - 1, flow, f.accepted};
        ++f.accepted;
        ++f.waiting;
        cells_.insert(cell);
        out.line("ok", cell.number, cell.last);
    }

    void turn(bool open, Output& out) {
        if (now_ == kSlotEnd) return out.line("no", 7u);
        if (open && !cells_.empty()) {
            const Cell& sent = *cells_.begin();
            out.text("sent ");
            out.number(sent.flow);
            out.text(" ");
            out.number(sent.number);
            take_first();
        } else {
            out.text("idle");
        }
        std::uint64_t missed = 0;
        while (!cells_.empty() && cells_.begin()->last == now_) {
            take_first();
            ++missed;
        }
        ++now_;
        out.line(" missed", missed);
    }

private:
    struct Flow {
        std::uint64_t deadline = 0;  // 0 while the flow is not open
        std::uint64_t accepted = 0;
        std::uint64_t waiting = 0;
    };

    void take_first() {
        --flows_[cells_.begin()->flow].waiting;
        cells_.erase(cells_.begin());
    }

    std::uint64_t now_ = 0;
    Flow flows_[kFlows];
    std::set<Cell> cells_;
};

// The lane that shares the link by weight, in the order of start tags.
class FairLane {
public:
    void open(std::uint64_t flow, std::uint64_t weight, Output& out) {
        if (flow >= kFlows) return out.line("no", 1u);
        if (flows_[flow].charge != 0) return out.line("no", 3u);
        if (weight < 1 || weight > kMostWeight) return out.line("no", 13u);
        flows_[flow].charge = kUnitsPerByte / weight;
        out.line("ok");
    }

    void close(std::uint64_t flow, Output& out) {
        if (flow >= kFlows) return out.line("no", 1u);
        Flow& f = flows_[flow];
        if (f.charge == 0) return out.line("no", 2u);
        if (f.waiting != 0 || (in_service_ && in_service_->flow == flow)) return out.line("no", 12u);
        f.charge = 0;
        out.line("ok");
    }

    void offer(std::uint64_t flow, std::uint64_t length, Output& out) {
        if (flow >= kFlows) return out.line("no", 1u);
        Flow& f = flows_[flow];
        if (f.charge == 0) return out.line("no", 2u);
        if (length < 1 || length > kMostLength) return out.line("no", 15u);
        if (f.waiting == kPlaces) return out.line("no", 5u);
        const std::uint64_t start = std::max(virtual_time_, f.last_finish);
        const std::uint64_t finish = start + length * f.charge;
        if (finish > kTagEnd || f.accepted > kTagEnd) return out.line("no", 6u);
        const Packet packet{start, flow, f.accepted, finish};
        f.last_finish = finish;
        ++f.accepted;
        ++f.waiting;
        packets_.insert(packet);
        out.line("ok", packet.number, start, finish);
    }

    void begin(Output& out) {
        if (in_service_) return out.line("no", 8u);
        if (packets_.empty()) return out.line("no", 9u);
        in_service_ = *packets_.begin();
        packets_.erase(packets_.begin());
        --flows_[in_service_->flow].waiting;
        virtual_time_ = in_service_->start;
        out.line("ok", in_service_->flow, in_service_->number, in_service_->start);
    }

    void end(Output& out) {
        if (!in_service_) return out.line("no", 10u);
        largest_ended_ = std::max(largest_ended_, in_service_->finish);
        if (packets_.empty()) virtual_time_ = largest_ended_;
        out.line("ok", in_service_->flow, in_service_->number);
        in_service_.reset();
    }

private:
    struct Flow {
        std::uint64_t charge = 0;  // 0 while the flow is not open
        std::uint64_t last_finish = 0;
        std::uint64_t accepted = 0;
        std::uint64_t waiting = 0;
    };

    std::uint64_t virtual_time_ = 0;
    std::uint64_t largest_ended_ = 0;
    Flow flows_[kFlows];
    std::set<Packet> packets_;
    std::optional<Packet> in_service_;
};

// Takes a blank and a number off the front of `rest`; false if they are not there.
bool take_number(std::string_view& rest, std::uint64_t& value) {
    if (rest.empty() || rest[0] != ' ') return false;
    rest.remove_prefix(1);
    std::size_t digits = 0;
    value = 0;
    while (digits < rest.size() && rest[digits] >= '0' && rest[digits] <= '9') {
        if (digits == 10) return false;
        value = value * 10 + static_cast<std::uint64_t>(rest[digits] - '0');
        ++digits;
    }
    if (digits == 0 || (digits > 1 && rest[0] == '0') || value > kMostField) return false;
    rest.remove_prefix(digits);
    return true;
}

// The station with its two lanes, reading one command at a time.
class Station {
public:
    void command(std::string_view line, Output& out) {
        if (!understood(line, out)) out.line("no", 11u);
    }

private:
    bool understood(std::string_view line, Output& out) {
        if (line.empty()) return false;
        std::string_view rest = line.substr(1);
        std::uint64_t a = 0;
        std::uint64_t b = 0;
        switch (line[0]) {
        case 'U':
            if (!take_number(rest, a) || !take_number(rest, b) || !rest.empty()) return false;
            urgent_.open(a, b, out);
            return true;
        case 'F':
            if (!take_number(rest, a) || !take_number(rest, b) || !rest.empty()) return false;
            fair_.open(a, b, out);
            return true;
        case 'C':
            if (!take_number(rest, a) || !rest.empty()) return false;
            urgent_.close(a, out);
            return true;
        case 'c':
            if (!take_number(rest, a) || !rest.empty()) return false;
            fair_.close(a, out);
            return true;
        case 'u':
            if (!take_number(rest, a) || !take_number(rest, b) || !rest.empty()) return false;
            urgent_.offer(a, b, out);
            return true;
        case 'f':
            if (!take_number(rest, a) || !take_number(rest, b) || !rest.empty()) return false;
            fair_.offer(a, b, out);
            return true;
        case 't':
        case 'x':
            if (!rest.empty()) return false;
            urgent_.turn(line[0] == 't', out);
            return true;
        case 'b':
            if (!rest.empty()) return false;
            fair_.begin(out);
            return true;
        case 'e':
            if (!rest.empty()) return false;
            fair_.end(out);
            return true;
        default:
            return false;
        }
    }

    UrgentLane urgent_;
    FairLane fair_;
};

}  // namespace

int main() {
    static char piece[kPiece];
    static Output out;
    Station station;
    // One byte more than a line may have is kept, enough to know it as too long.
    char line[kMostLine + 1];
    std::size_t length = 0;
    const auto finish_line = [&] {
        if (length > kMostLine) {
            out.line("no", 11u);
        } else {
            station.command(std::string_view(line, length), out);
        }
        length = 0;
    };
    std::size_t got;
    while ((got = std::fread(piece, 1, kPiece, stdin)) > 0) {
        for (std::size_t i = 0; i < got; ++i) {
            if (piece[i] == '\n') {
                finish_line();
            } else if (length <= kMostLine) {
                line[length++] = piece[i];
            }
        }
    }
    if (length > 0) finish_line();
    out.flush();
    return std::ferror(stdin) || std::fflush(stdout) != 0 || std::ferror(stdout) ? 1 : 0;
}
