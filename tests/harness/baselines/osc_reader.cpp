// A strict OSC 1.0 reader by hand, beside `tests/tools/bench`. Build: c++ -std=c++17 -O2 -o osc_reader osc_reader.cpp
//
// It holds a datagram to each rule that `cue_osc::read` does, and builds the same value: a bundle is a vector of its
// items, a message is a slice of the datagram and a vector of arguments. Nothing of the datagram is copied.
// It prints the best and the median of seven rounds, in nanoseconds a call.

#include <algorithm>
#include <chrono>
#include <cstdint>
#include <cstdio>
#include <cstring>
#include <memory>
#include <string>
#include <string_view>
#include <utility>
#include <variant>
#include <vector>

namespace {

using Bytes = std::string_view;

constexpr size_t max_len = 4096;
constexpr int max_depth = 8;
constexpr uint32_t negative = 1u << 31;
constexpr Bytes bundle_head("#bundle\0", 8);

enum class Fault { none, too_long, not_multiple, bad_start, bad_string, bad_blob, bad_size, too_deep, trailing };

struct Text { Bytes bytes; };
struct Blob { Bytes bytes; };
using Arg = std::variant<int32_t, Text, Blob>;

struct Bundle;
enum class Kind { message, discarded, bundle };

// A message has an address and arguments, a discarded one an address, a bundle what stands after `bundle`.
struct Packet {
    Kind kind = Kind::message;
    Bytes address;
    std::vector<Arg> args;
    std::unique_ptr<Bundle> bundle;
};

struct Bundle {
    uint64_t tag = 0;
    std::vector<Packet> items;
};

uint32_t number(const char *at) {
    uint32_t n;
    std::memcpy(&n, at, sizeof n);
    return __builtin_bswap32(n);
}

// Each of these takes what it reads from the front of `rest`.
Fault take_u32(Bytes &rest, uint32_t &n) {
    if (rest.size() < 4) return Fault::bad_size;
    n = number(rest.data());
    rest.remove_prefix(4);
    return Fault::none;
}

Fault take_u64(Bytes &rest, uint64_t &n) {
    if (rest.size() < 8) return Fault::bad_size;
    n = uint64_t{number(rest.data())} << 32 | number(rest.data() + 4);
    rest.remove_prefix(8);
    return Fault::none;
}

bool take_padded(Bytes &rest, size_t len, size_t padding, Bytes &content) {
    if (rest.size() < len || rest.size() - len < padding) return false;
    for (size_t i = len; i < len + padding; ++i)
        if (rest[i] != 0) return false;
    content = rest.substr(0, len);
    rest.remove_prefix(len + padding);
    return true;
}

Fault take_string(Bytes &rest, Bytes &text) {
    size_t len = 0;
    while (len < rest.size() && rest[len] != 0) ++len;
    return take_padded(rest, len, 4 - len % 4, text) ? Fault::none : Fault::bad_string;
}

Fault take_blob(Bytes &rest, Bytes &blob) {
    uint32_t len;
    if (Fault fault = take_u32(rest, len); fault != Fault::none) return fault;
    if (len >= negative || !take_padded(rest, len, (4 - len % 4) % 4, blob)) return Fault::bad_blob;
    return Fault::none;
}

Fault take_arg(char kind, Bytes &rest, std::vector<Arg> &args) {
    Fault fault;
    if (kind == 'i') {
        uint32_t n;
        fault = take_u32(rest, n);
        if (fault == Fault::none) args.emplace_back(static_cast<int32_t>(n));
    } else if (kind == 's') {
        Text text;
        fault = take_string(rest, text.bytes);
        if (fault == Fault::none) args.emplace_back(text);
    } else {
        Blob blob;
        fault = take_blob(rest, blob.bytes);
        if (fault == Fault::none) args.emplace_back(blob);
    }
    return fault;
}

bool is_known(char kind) { return kind == 'i' || kind == 's' || kind == 'b'; }

Fault read_message(Bytes rest, Packet &packet) {
    if (Fault fault = take_string(rest, packet.address); fault != Fault::none) return fault;
    if (!rest.empty() && rest.front() != ',') {
        packet.kind = Kind::discarded;
        return Fault::none;
    }
    if (rest.empty()) return Fault::none;
    Bytes kinds;
    if (Fault fault = take_string(rest, kinds); fault != Fault::none) return fault;
    kinds.remove_prefix(1);
    if (!std::all_of(kinds.begin(), kinds.end(), is_known)) {
        packet.kind = Kind::discarded;
        return Fault::none;
    }
    packet.args.reserve(kinds.size());
    for (char kind : kinds)
        if (Fault fault = take_arg(kind, rest, packet.args); fault != Fault::none) return fault;
    return rest.empty() ? Fault::none : Fault::trailing;
}

Fault read_packet(Bytes bytes, int depth, Packet &packet);

// How many elements stand here, by their sizes alone: room for them is made at once.
size_t count_elements(Bytes rest) {
    size_t count = 0;
    for (uint32_t size; take_u32(rest, size) == Fault::none && size <= rest.size(); ++count) rest.remove_prefix(size);
    return count;
}

Fault read_bundle(Bytes rest, int depth, Packet &packet) {
    packet.kind = Kind::bundle;
    packet.bundle = std::make_unique<Bundle>();
    Bundle &bundle = *packet.bundle;
    if (Fault fault = take_u64(rest, bundle.tag); fault != Fault::none) return fault;
    bundle.items.reserve(count_elements(rest));
    while (!rest.empty()) {
        uint32_t size;
        if (Fault fault = take_u32(rest, size); fault != Fault::none) return fault;
        if (size == 0 || size >= negative || size % 4 != 0 || size > rest.size()) return Fault::bad_size;
        Packet &item = bundle.items.emplace_back();
        if (Fault fault = read_packet(rest.substr(0, size), depth, item); fault != Fault::none) return fault;
        rest.remove_prefix(size);
    }
    return Fault::none;
}

Fault read_packet(Bytes bytes, int depth, Packet &packet) {
    if (!bytes.empty() && bytes.front() == '/') return read_message(bytes, packet);
    if (bytes.substr(0, bundle_head.size()) != bundle_head) return Fault::bad_start;
    if (depth == 0) return Fault::too_deep;
    return read_bundle(bytes.substr(bundle_head.size()), depth - 1, packet);
}

Fault read(Bytes bytes, Packet &packet) {
    if (bytes.size() > max_len) return Fault::too_long;
    if (bytes.size() % 4 != 0) return Fault::not_multiple;
    return read_packet(bytes, max_depth, packet);
}

// Has the compiler take it that the value is looked at.
void keep(const void *value) { asm volatile("" : : "g"(value) : "memory"); }

bool once(Bytes bytes) {
    Packet packet;
    const Fault fault = read(bytes, packet);
    keep(&packet);
    return fault == Fault::none;
}

void time_reading(const char *name, int calls, Bytes bytes) {
    using std::chrono::duration_cast, std::chrono::nanoseconds, std::chrono::steady_clock;
    std::vector<long long> rounds;
    bool went = true;
    for (int round = 0; round < 7; ++round) {
        const auto start = steady_clock::now();
        for (int call = 0; call < calls; ++call) went = once(bytes) && went;
        rounds.push_back(duration_cast<nanoseconds>(steady_clock::now() - start).count() / calls);
    }
    std::sort(rounds.begin(), rounds.end());
    if (went)
        std::printf("%s: best %lld ns, median %lld ns a call\n", name, rounds.front(), rounds[rounds.size() / 2]);
    else
        std::printf("%s: a call did not go as it is meant to\n", name);
}

template <size_t N> Bytes literal(const char (&text)[N]) { return Bytes(text, N - 1); }

} // namespace

int main() {
    const Bytes standby =
        literal("/msc/standby\0\0\0\0,iisb\0\0\0\0\0\0\x01\0\0\0\x03" "1\0\0\0\0\0\0\x02\x0a\x0b\0\0");
    std::string bundle("#bundle\0\0\0\0\0\0\0\0\x01", 16);
    for (int message = 0; message < 340; ++message) bundle += literal("\0\0\0\x08/status\0");
    time_reading("read_standby", 1'000'000, standby);
    time_reading("read_bundle", 20'000, bundle);
}
