/** What the example compares: this class as javac writes it, and as ProGuard writes it. */
public final class Ints {
    private int size;

    /** A getter. */
    public int size() {
        return size;
    }

    public void resize(int to) {
        size = to;
    }

    /** A sum. ProGuard keeps `i` in the local of `from`, and needs none for `next`. */
    public static int sum(int[] ints, int from) {
        int sum = 0;
        for (int i = from; i < ints.length; i++) {
            int next = sum + ints[i];
            sum = next;
        }
        return sum;
    }

    /** A sum of multiples. ProGuard shifts by 3 where the source multiplies by 8. */
    public static int sumOfEights(int n) {
        int sum = 0;
        for (int i = 0; i < n; i++) {
            sum += i * 8;
        }
        return sum;
    }

    /** A method that allocates: the ints from `first` to `last` - 1. */
    public static int[] range(int first, int last) {
        int[] ints = new int[last < first ? 0 : last - first];
        for (int i = 0; i < ints.length; i++) {
            ints[i] = first + i;
        }
        return ints;
    }

    /** A call. ProGuard puts the code of `listOf` in its place, and leaves `listOf` out. */
    public static int[] single(int n) {
        return listOf(n);
    }

    private static int[] listOf(int n) {
        return new int[] {n};
    }

    /** A method without code. */
    public native int hash();
}
