/* Texts of 0 and 1, 64 digits at a time. */

/* Whether a text has only such digits. */
static inline bool fb_are_digits(const uint8_t *text, size_t size) {
    uint8_t other = 0;
    for (size_t at = 0; at < size; at++)
        other |= (uint8_t)(text[at] ^ '0');
    return other <= 1;
}

/* Gives each bit the value of its digit; the text of them stands at n[0]. */
static inline fb_status fb_read_digits(fb_seen w, fb_seen r, uint64_t *n) {
    const uint8_t *text = (const uint8_t *)(uintptr_t)n[0];
    fb_status status = FB_DONE;
    for (size_t at = 0; at < w->len && status == FB_DONE; at += 64) {
        const size_t size = w->len - at < 64 ? w->len - at : 64;
        const fb_window part = fb_part(w, at, size);
        uint64_t number = 0;
        if (w->order == FB_LSB0)
            for (size_t k = 0; k < size; k++)
                number |= (uint64_t)(text[at + k] & 1) << k;
        else
            for (size_t k = 0; k < size; k++)
                number = number << 1 | (text[at + k] & 1);
        status = w->order == FB_LSB0 ? fb_store_le(&part, r, &number) : fb_store_be(&part, r, &number);
    }
    return status;
}

/* Writes the digit of each bit to the text at n[0]. */
static inline fb_status fb_write_digits(fb_seen w, fb_seen r, uint64_t *n) {
    uint8_t *text = (uint8_t *)(uintptr_t)n[0];
    fb_status status = FB_DONE;
    for (size_t at = 0; at < w->len && status == FB_DONE; at += 64) {
        const size_t size = w->len - at < 64 ? w->len - at : 64;
        const fb_window part = fb_part(w, at, size);
        uint64_t number = 0;
        status = w->order == FB_LSB0 ? fb_load_le(&part, r, &number) : fb_load_be(&part, r, &number);
        for (size_t k = 0; k < size; k++, number >>= 1)
            text[at + (w->order == FB_LSB0 ? k : size - 1 - k)] = (uint8_t)('0' + (number & 1));
    }
    return status;
}
