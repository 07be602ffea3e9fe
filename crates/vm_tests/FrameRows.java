/**
 * Prints src/frame_rows.rt: what the JVM gives of ints and longs at edges.
 * Run it as `java FrameRows.java >src/frame_rows.rt` in this folder.
 */
class FrameRows {
    private static final int[] INTS = {-2147483648, -129, -1, 0, 7, 2147483647};

    private static final int[] CONVERTED = {-32769, -32768, -129, 127, 128, 255, 256, 32767, 32768, 65535, 65536, 2147483647};

    private static final long[] LONGS = {
        -9223372036854775808L, -2147483649L, -1, 0, 7, 9223372036854775807L
    };

    private static final int[] DISTANCES = {-2147483648, -1, 0, 1, 31, 32, 33, 63, 64};

    public static void main(String[] words) {
        System.out.println("// What the JVM gives of ints and longs. `java FrameRows.java` writes this file.");
        System.out.println("\n/// An instruction with its opcode, what is on the stack, and what is there after it, or the fault.");
        System.out.println("pub(crate) const NUMBERS: &str = \"");
        ints();
        conversions();
        longs();
        System.out.println("\";");
    }

    private static void ints() {
        for (int a : INTS) {
            row("ineg", 116, text(a), text(-a));
            row("i2l", 133, text(a), text((long) a));
            for (int b : INTS) {
                String taken = text(a) + " " + text(b);
                row("iadd", 96, taken, text(a + b));
                row("isub", 100, taken, text(a - b));
                row("imul", 104, taken, text(a * b));
                row("idiv", 108, taken, b == 0 ? "zero" : text(a / b));
                row("irem", 112, taken, b == 0 ? "zero" : text(a % b));
                row("iand", 126, taken, text(a & b));
                row("ior", 128, taken, text(a | b));
                row("ixor", 130, taken, text(a ^ b));
            }
            for (int d : DISTANCES) {
                String taken = text(a) + " " + text(d);
                row("ishl", 120, taken, text(a << d));
                row("ishr", 122, taken, text(a >> d));
                row("iushr", 124, taken, text(a >>> d));
            }
        }
    }

    private static void conversions() {
        for (int a : CONVERTED) {
            row("i2b", 145, text(a), text((byte) a));
            row("i2c", 146, text(a), text((char) a));
            row("i2s", 147, text(a), text((short) a));
            row("l2i", 136, text((long) a << 16), text((int) ((long) a << 16)));
        }
    }

    private static void longs() {
        for (long a : LONGS) {
            row("lneg", 117, text(a), text(-a));
            row("l2i", 136, text(a), text((int) a));
            for (long b : LONGS) {
                String taken = text(a) + " " + text(b);
                row("ladd", 97, taken, text(a + b));
                row("lsub", 101, taken, text(a - b));
                row("lmul", 105, taken, text(a * b));
                row("ldiv", 109, taken, b == 0 ? "zero" : text(a / b));
                row("lrem", 113, taken, b == 0 ? "zero" : text(a % b));
                row("land", 127, taken, text(a & b));
                row("lor", 129, taken, text(a | b));
                row("lxor", 131, taken, text(a ^ b));
                row("lcmp", 148, taken, text(Long.compare(a, b)));
            }
            for (int d : DISTANCES) {
                String taken = text(a) + " " + text(d);
                row("lshl", 121, taken, text(a << d));
                row("lshr", 123, taken, text(a >> d));
                row("lushr", 125, taken, text(a >>> d));
            }
        }
    }

    private static String text(int number) {
        return Integer.toString(number);
    }

    private static String text(long number) {
        return number + "L";
    }

    private static void row(String name, int opcode, String taken, String given) {
        System.out.println("    " + name + " " + Integer.toHexString(opcode) + " | " + taken + " | " + given);
    }
}
