/* Seats of a train, a bit each; 1 is taken. */
#include <fehimbary.h>
#include <stdio.h>

int main(void) {
    uint64_t seats[4] = {0};
    size_t seat = 0, taken = 0;
    fb_status said = fb_u64_fill(FB_LSB0, seats, 4, 0, 50, true);
    if (said == FB_DONE)
        said = fb_u64_first_zero(FB_LSB0, seats, 4, 0, 200, &seat);
    if (said == FB_DONE)
        said = fb_u64_set(FB_LSB0, seats, 4, 0, 200, seat, true);
    if (said == FB_DONE)
        said = fb_u64_count_ones(FB_LSB0, seats, 4, 0, 200, &taken);
    printf("%s: took %zu, %zu are taken\n", fb_status_text(said), seat, taken);
    said = fb_u64_fill(FB_LSB0, seats, 4, 200, 57, true);
    printf("%s: there are no 257 seats\n", fb_status_text(said));
    return 0;
}
