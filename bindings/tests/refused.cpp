// Calls that write, each of which a view of const elements refuses by name; with none of them this compiles.
#include <fehimbary.hpp>

void write(fehimbary::Bits<const uint8_t> bits) {
#if defined(WRITE_SET)
    bits.set(0, true);
#elif defined(WRITE_REPLACE)
    bits.replace(0, true);
#elif defined(WRITE_FILL)
    bits.fill(true);
#elif defined(WRITE_COPY_FROM)
    bits.copy_from(bits);
#elif defined(WRITE_OR)
    bits |= bits;
#elif defined(WRITE_FILL_STEP)
    bits.fill_step(2, true);
#elif defined(WRITE_STORE)
    bits.store_le(1);
#else
    (void)bits;
#endif
}
