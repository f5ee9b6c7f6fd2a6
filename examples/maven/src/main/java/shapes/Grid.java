package shapes;

/** The grid, which has no negative sizes. */
final class Grid {
    private Grid() {
    }

    static int clamp(int size) {
        return size < 0 ? 0 : size;
    }

    static int unused(int size) {
        return size + 1;
    }
}
