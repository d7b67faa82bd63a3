/* The same as equal.c, but it leaves at the first byte that differs: its time tells how many bytes are right. */
unsigned equal(const unsigned char *a, const unsigned char *b) {
    for (unsigned i = 0; i != 16; i++) {
        if (a[i] != b[i]) {
            return 0;
        }
    }
    return 1;
}
