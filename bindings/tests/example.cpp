// The headers of a packet: 4 bits of version, 4 of length, the lengths in words.
#include <fehimbary.hpp>
#include <algorithm>
#include <cstdio>

int main() {
    uint8_t packet[20] = {0x45, 0, 0, 115};
    const fehimbary::Bits<uint8_t, fehimbary::Msb0> bits(packet);
    std::printf("version %ju, %ju bytes\n", bits.part(0, 4).load_be(), bits.part(16, 32).load_be());
    bits.part(51, 64).store_be(185);
    for (size_t one : bits.part(0, 8).ones())
        std::printf("bit %zu\n", one);
    std::reverse(bits.begin(), bits.begin() + 8);
    std::printf("%s\n", bits.part(0, 8).to_string().c_str());
    try {
        bits.part(0, 4).rotate_left(5);
    } catch (const fehimbary::Refused &refused) {
        std::printf("%s, and byte 7 is %d\n", refused.what(), packet[7]);
    }
}
