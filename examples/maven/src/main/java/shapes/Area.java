package shapes;

/** Areas of rectangles on a grid, and how many tiles cover them. */
public final class Area {
    private Area() {
    }

    public static int of(int width, int height) {
        return Grid.clamp(width) * Grid.clamp(height);
    }

    public static int border(int width, int height) {
        return 2 * (width + height);
    }

    public static int tiles(int[] widths, int height) {
        int all = 0;
        for (int i = 0; i < widths.length; i++) {
            int area = of(widths[i], height);
            all += area / 8;
        }
        return all;
    }
}
