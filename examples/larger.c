/* The larger one of two numbers, by the function of pick.c. */
__attribute__((import_module("pick"), import_name("pick")))
unsigned pick(unsigned bit, unsigned yes, unsigned no);

unsigned larger(unsigned a, unsigned b) {
    return pick(a > b, a, b);
}
