// The header of a packet, version 4 of the Internet protocol, as a struct of bit fields, and its bytes as
// one stores and loads them by hand.
#pragma once
#include <array>
#include <cstdint>

struct Header {
    uint32_t version : 4, length : 4, service : 6, congestion : 2, total : 16;
    uint32_t identification : 16, flags : 3, offset : 13;
    uint32_t ttl : 8, protocol : 8, checksum : 16;
    uint32_t source, destination;
};

using Bytes = std::array<uint8_t, 20>;
using Numbers = std::array<uint64_t, 13>;

inline constexpr Numbers header_numbers = {4, 5, 0, 0, 115, 0, 2, 0, 64, 17, 0xB861, 0xC0A80001, 0xC0A800C7};

// Whether each number fits its field.
inline bool fits(const Numbers &n) {
    return n[0] < 16 && n[1] < 16 && n[2] < 64 && n[3] < 4 && n[4] < 65536 && n[5] < 65536 && n[6] < 8 && n[7] < 8192 &&
           n[8] < 256 && n[9] < 256 && n[10] < 65536 && n[11] < 4294967296 && n[12] < 4294967296;
}

inline Header header_of(const Numbers &n) {
    Header h;
    h.version = n[0], h.length = n[1], h.service = n[2], h.congestion = n[3], h.total = n[4];
    h.identification = n[5], h.flags = n[6], h.offset = n[7];
    h.ttl = n[8], h.protocol = n[9], h.checksum = n[10];
    h.source = n[11], h.destination = n[12];
    return h;
}

inline Numbers numbers_of(const Header &h) {
    return {h.version, h.length, h.service,  h.congestion, h.total,  h.identification, h.flags,
            h.offset,  h.ttl,    h.protocol, h.checksum,   h.source, h.destination};
}

inline void store_16(uint8_t *p, uint16_t number) { p[0] = number >> 8, p[1] = number; }
inline void store_32(uint8_t *p, uint32_t number) { store_16(p, number >> 16), store_16(p + 2, number); }
inline uint16_t load_16(const uint8_t *p) { return p[0] << 8 | p[1]; }
inline uint32_t load_32(const uint8_t *p) { return uint32_t(load_16(p)) << 16 | load_16(p + 2); }

[[gnu::noinline]] inline bool encode(const Numbers &numbers, Bytes &bytes) {
    if (!fits(numbers))
        return false;
    const Header h = header_of(numbers);
    bytes[0] = h.version << 4 | h.length;
    bytes[1] = h.service << 2 | h.congestion;
    store_16(&bytes[2], h.total);
    store_16(&bytes[4], h.identification);
    store_16(&bytes[6], h.flags << 13 | h.offset);
    bytes[8] = h.ttl;
    bytes[9] = h.protocol;
    store_16(&bytes[10], h.checksum);
    store_32(&bytes[12], h.source);
    store_32(&bytes[16], h.destination);
    return true;
}

[[gnu::noinline]] inline void decode(const Bytes &bytes, Numbers &numbers) {
    Header h;
    h.version = bytes[0] >> 4, h.length = bytes[0];
    h.service = bytes[1] >> 2, h.congestion = bytes[1];
    h.total = load_16(&bytes[2]);
    h.identification = load_16(&bytes[4]);
    h.flags = bytes[6] >> 5, h.offset = load_16(&bytes[6]);
    h.ttl = bytes[8], h.protocol = bytes[9];
    h.checksum = load_16(&bytes[10]);
    h.source = load_32(&bytes[12]), h.destination = load_32(&bytes[16]);
    numbers = numbers_of(h);
}
