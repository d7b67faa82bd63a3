/* The same as pick.c by a multiplication, which some processors do faster for small numbers. */
unsigned blend(unsigned bit, unsigned yes, unsigned no) {
    return no + bit * (yes - no);
}
