/* The answer of equal.c, for whoever may know it: once labelled, the one function that may release a secret. */
__attribute__((import_module("equal"), import_name("equal")))
unsigned equal(const unsigned char *a, const unsigned char *b);

unsigned answer(const unsigned char *a, const unsigned char *b) {
    return equal(a, b);
}
