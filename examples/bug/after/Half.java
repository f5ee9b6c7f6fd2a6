/** The same with a shift, as an optimiser wrote it that forgot negative numbers: a shift rounds down. */
final class Half {
    static int half(int n) {
        return n >> 1;
    }
}
