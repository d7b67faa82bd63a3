/* One of two numbers by a bit; clang makes an instruction `select` of it, and no branch. */
unsigned pick(unsigned bit, unsigned yes, unsigned no) {
    return bit ? yes : no;
}
