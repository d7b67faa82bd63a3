/* Whether the 16 bytes at two places are equal: 1 or 0, by the same steps for all bytes. */
unsigned equal(const unsigned char *a, const unsigned char *b) {
    unsigned difference = 0;
    for (unsigned i = 0; i != 16; i++) {
        difference |= a[i] ^ b[i];
    }
    return (difference - 1) >> 31;
}
