/* README's code for C. */
#include <assert.h>
#include <fehimbary.h>

int main(void) {
    uint8_t header[4] = {0};
    fb_status kind = fb_u8_store_be(FB_MSB0, header, 4, 3, 4, 5);
    fb_status size = fb_u8_store_be(FB_MSB0, header, 4, 7, 9, 300);
    assert(kind == FB_DONE && size == FB_DONE);
    assert(header[0] == 0x0B && header[1] == 0x2C);
    return 0;
}
