/** The half of a number, rounded towards zero. */
final class Half {
    static int half(int n) {
        return n / 2;
    }
}
