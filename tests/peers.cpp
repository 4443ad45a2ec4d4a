// Measures the linked library's check, build and read against software that computes the same 16 check bits: a table of 256
// entries, slicing by 8 and by 16 (here), and Boost.CRC and crcutil where their headers are installed.
//
// The check alone is reading a block that fails. A peer's check runs over the packed block's bytes, the spare bits cleared:
// four zero bits after the n do not change whether the generator divides. Its build and read move the data by half a byte in
// a loop that the compiler may vectorise. crcutil takes the earliest bit of a byte as the lowest, so that it is given blocks
// with the bits of each byte in the other order.
//
// peers                          prints the ratios peer / library of medians, above 1 where the library is faster
// peers count CALL K NAME PASSES makes one pass and this many more of one of them alone, for callgrind to count
#include "../include/order_line.h"

#include <algorithm>
#include <chrono>
#include <cstdint>
#include <cstdio>
#include <cstdlib>
#include <cstring>
#include <vector>

#if __has_include(<boost/crc.hpp>)
#include <boost/crc.hpp>
#define HAS_BOOST 1
#endif
#if __has_include(<crcutil/generic_crc.h>)
#include <crcutil/generic_crc.h>
#define HAS_CRCUTIL 1
#endif

namespace {

constexpr int kBlocks = 16;
constexpr int kRounds = 101;
constexpr size_t kLengths[] = {240, 480, 960, 3840};
constexpr const char *kCalls[] = {"check", "build", "read"};

// ---- the peers' registers: the check bits of some bytes, from a register on

// table[j][x]: what a byte x leaves that is followed by j zero bytes
uint16_t table[16][256];

void fill_tables() {
    for (int x = 0; x < 256; x++) {
        unsigned c = (unsigned)x << 8;
        for (int i = 0; i < 8; i++)
            c = (c << 1) ^ (c & 0x8000 ? 0x1021 : 0);
        table[0][x] = (uint16_t)c;
    }
    for (int j = 1; j < 16; j++)
        for (int x = 0; x < 256; x++)
            table[j][x] = (uint16_t)(table[j - 1][x] << 8) ^ table[0][table[j - 1][x] >> 8];
}

struct Table256 {
    static constexpr bool lowest_first = false;
    static uint16_t feed(uint16_t c, const uint8_t *s, size_t len) {
        for (size_t i = 0; i < len; i++)
            c = (uint16_t)(c << 8) ^ table[0][(c >> 8) ^ s[i]];
        return c;
    }
};

template <int N> struct Slicing {
    static constexpr bool lowest_first = false;
    static uint16_t feed(uint16_t c, const uint8_t *s, size_t len) {
        while (len >= N) {
            uint16_t next = table[N - 1][s[0] ^ (c >> 8)] ^ table[N - 2][s[1] ^ (c & 255)];
            for (int j = 2; j < N; j++)
                next ^= table[N - 1 - j][s[j]];
            c = next;
            s += N;
            len -= N;
        }
        return Table256::feed(c, s, len);
    }
};

#ifdef HAS_BOOST
struct Boost {
    static constexpr bool lowest_first = false;
    static uint16_t feed(uint16_t c, const uint8_t *s, size_t len) {
        boost::crc_optimal<16, 0x1021, 0, 0, false, false> crc(c);
        crc.process_bytes(s, len);
        return crc.checksum();
    }
};
#endif

#ifdef HAS_CRCUTIL
struct Crcutil {
    using Crc = crcutil::GenericCrc<crcutil::uint64, crcutil::uint64, crcutil::uint64, 4>;
    static constexpr bool lowest_first = true;
    static uint16_t feed(uint16_t c, const uint8_t *s, size_t len) {
        static const Crc crc(0x8408, 16, false);
        return (uint16_t)crc.CrcDefault(s, len, c);
    }
};
#endif

// ---- the calls on a peer; where the lowest bit is the first, all is mirrored

template <class P> uint8_t half(uint8_t first, uint8_t second) {
    return P::lowest_first ? (uint8_t)((first >> 4) | (second << 4)) : (uint8_t)((first << 4) | (second >> 4));
}

template <class P> bool check(size_t k, const uint8_t *block) {
    size_t last = k / 8 + 2;
    uint8_t end = block[last] & (P::lowest_first ? 0x0f : 0xf0);
    return P::feed(P::feed(0, block, last), &end, 1) == 0;
}

template <class P> void build(size_t k, uint8_t service, const uint8_t *data, uint8_t *block) {
    size_t m = k / 8;
    uint8_t head = P::lowest_first ? (uint8_t)(service << 4) : service;
    uint16_t c = P::feed(P::feed(0, &head, 1), data, m);
    uint8_t first = P::lowest_first ? (uint8_t)c : (uint8_t)(c >> 8);
    uint8_t second = P::lowest_first ? (uint8_t)(c >> 8) : (uint8_t)c;
    block[0] = half<P>(head, data[0]);
    for (size_t i = 1; i < m; i++)
        block[i] = half<P>(data[i - 1], data[i]);
    block[m] = half<P>(data[m - 1], first);
    block[m + 1] = half<P>(first, second);
    block[m + 2] = half<P>(second, 0);
}

template <class P> bool read(size_t k, const uint8_t *block, uint8_t *data) {
    if (!check<P>(k, block))
        return false;
    for (size_t i = 0; i < k / 8; i++)
        data[i] = half<P>(block[i], block[i + 1]);
    return true;
}

// ---- what is measured: a pass is one call on each of the blocks

struct Buffers {
    size_t k;
    std::vector<uint8_t> data[kBlocks], good[kBlocks], bad[kBlocks];
    uint8_t place[512];
    uint16_t remainder;
};

uint8_t mirrored(uint8_t x) {
    uint8_t y = 0;
    for (int i = 0; i < 8; i++)
        y |= (uint8_t)(((x >> i) & 1) << (7 - i));
    return y;
}

uint8_t service_of(int i, bool lowest_first) {
    const uint8_t letters[] = {3, 9, 12};
    return lowest_first ? (uint8_t)(mirrored(letters[i % 3]) >> 4) : letters[i % 3];
}

void require(bool holds, const char *what) {
    if (!holds) {
        fprintf(stderr, "peers: %s\n", what);
        exit(1);
    }
}

Buffers buffers(size_t k, bool lowest_first) {
    Buffers b;
    b.k = k;
    uint32_t seed = 1;
    for (int i = 0; i < kBlocks; i++) {
        for (size_t j = 0; j < k / 8; j++)
            b.data[i].push_back((uint8_t)((seed = seed * 1664525u + 1013904223u) >> 24));
        b.good[i].resize(ORDER_LINE_BLOCK_BYTES(k));
        require(order_line_build_block(k, service_of(i, false), b.data[i].data(), k / 8, b.good[i].data(),
                                       b.good[i].size()) == 0, "a block is refused");
        b.bad[i] = b.good[i];
        b.bad[i][k / 16] ^= 0x40;
        if (lowest_first)
            for (auto *bytes : {&b.data[i], &b.good[i], &b.bad[i]})
                std::transform(bytes->begin(), bytes->end(), bytes->begin(), mirrored);
    }
    return b;
}

using Pass = void (*)(Buffers &);

uint16_t library_answer(Buffers &b, const std::vector<uint8_t> &block) {
    return order_line_read_block(b.k, block.data(), block.size(), b.place, b.k / 8, &b.remainder);
}

void library_check(Buffers &b) {
    for (auto &block : b.bad)
        require(library_answer(b, block) == ORDER_LINE_FAILED, "check");
}

void library_build(Buffers &b) {
    for (int i = 0; i < kBlocks; i++)
        require(order_line_build_block(b.k, service_of(i, false), b.data[i].data(), b.k / 8, b.place,
                                       ORDER_LINE_BLOCK_BYTES(b.k)) == 0, "build");
}

void library_read(Buffers &b) {
    for (auto &block : b.good)
        require(library_answer(b, block) < ORDER_LINE_FAILED, "read");
}

template <class P> void peer_check(Buffers &b) {
    for (auto &block : b.bad)
        require(!check<P>(b.k, block.data()), "check");
}

template <class P> void peer_build(Buffers &b) {
    for (int i = 0; i < kBlocks; i++)
        build<P>(b.k, service_of(i, P::lowest_first), b.data[i].data(), b.place);
}

template <class P> void peer_read(Buffers &b) {
    for (auto &block : b.good)
        require(read<P>(b.k, block.data(), b.place), "read");
}

struct Tested {
    const char *name;
    bool lowest_first;
    Pass passes[3]; // in the order of kCalls
};

template <class P> Tested peer(const char *name) {
    return {name, P::lowest_first, {peer_check<P>, peer_build<P>, peer_read<P>}};
}

std::vector<Tested> all_tested() {
    std::vector<Tested> tested = {{"library", false, {library_check, library_build, library_read}},
                                  peer<Table256>("table"),
                                  peer<Slicing<8>>("slicing8"),
                                  peer<Slicing<16>>("slicing16")};
#ifdef HAS_BOOST
    tested.push_back(peer<Boost>("boost"));
#endif
#ifdef HAS_CRCUTIL
    tested.push_back(peer<Crcutil>("crcutil"));
#endif
    return tested;
}

// Each peer builds and reads what the library does: its pass over sixteen times the same block, the last of which carries A.
void compare(const Tested &t, size_t k) {
    Buffers b = buffers(k, t.lowest_first);
    for (auto *rows : {b.data, b.good})
        std::fill(rows, rows + kBlocks, rows[kBlocks - 1]);
    t.passes[1](b);
    require(memcmp(b.place, b.good[0].data(), b.good[0].size()) == 0, "another block is built");
    t.passes[2](b);
    require(memcmp(b.place, b.data[0].data(), b.data[0].size()) == 0, "other data are read");
}

double nanoseconds(Pass pass, Buffers &b, int passes) {
    auto began = std::chrono::steady_clock::now();
    for (int i = 0; i < passes; i++)
        pass(b);
    std::chrono::duration<double, std::nano> took = std::chrono::steady_clock::now() - began;
    return took.count() / passes / kBlocks;
}

double median(std::vector<double> values) {
    std::nth_element(values.begin(), values.begin() + values.size() / 2, values.end());
    return values[values.size() / 2];
}

void measure(const std::vector<Tested> &tested, int call, size_t k) {
    std::vector<Buffers> b;
    for (auto &t : tested)
        b.push_back(buffers(k, t.lowest_first));
    std::vector<std::vector<double>> times(tested.size());
    int passes = (int)(200000 / k);
    for (int round = 0; round < kRounds; round++)
        for (size_t i = 0; i < tested.size(); i++)
            times[i].push_back(nanoseconds(tested[i].passes[call], b[i], passes));
    double library = median(times[0]);
    printf("%-8s%6zu%12.1f", kCalls[call], k, library);
    for (size_t i = 1; i < tested.size(); i++)
        printf("%12.2f", median(times[i]) / library);
    printf("\n");
}

int count(const std::vector<Tested> &tested, char **words) {
    for (auto &t : tested)
        for (int call = 0; call < 3; call++)
            if (!strcmp(kCalls[call], words[0]) && !strcmp(t.name, words[2])) {
                Buffers b = buffers((size_t)atoi(words[1]), t.lowest_first);
                t.passes[call](b); // a peer may fill its tables here
                for (int i = atoi(words[3]); i > 0; i--)
                    t.passes[call](b);
                printf("%d\n", kBlocks);
                return 0;
            }
    fprintf(stderr, "peers: no call %s of %s\n", words[0], words[2]);
    return 1;
}

} // namespace

int main(int argc, char **argv) {
    fill_tables();
    std::vector<Tested> tested = all_tested();
    if (argc == 6 && !strcmp(argv[1], "count"))
        return count(tested, argv + 2);
    if (argc == 2 && !strcmp(argv[1], "names")) {
        for (auto &t : tested)
            puts(t.name);
        return 0;
    }
    printf("%-8s%6s%12s", "call", "k", "library, ns");
    for (size_t i = 1; i < tested.size(); i++)
        printf("%12s", tested[i].name);
    printf("\n");
    for (auto &t : tested)
        for (size_t k : kLengths)
            compare(t, k);
    for (int call = 0; call < 3; call++)
        for (size_t k : kLengths)
            measure(tested, call, k);
    return 0;
}
