// Prints the rows of src/rows.rt: what the JVM gives for each operation on ints and longs, and on chars and shorts for 16 bits.
import java.util.function.LongBinaryOperator;

public class Rows {
    static final long[] EDGES16 = {0, 1, 3, 0x7fff, 0x8000, 0xffff};
    static final long[] EDGES32 = {0, 1, 3, 0x7fffffffL, 0x80000000L, 0xffffffffL};
    static final long[] EDGES64 = {0, 1, 3, Long.MAX_VALUE, Long.MIN_VALUE, -1};

    static void rows(String op, int width, long[] edges, long mask, LongBinaryOperator f) {
        for (long x : edges) {
            StringBuilder line = new StringBuilder("    " + op + " " + width + " " + Long.toHexString(x) + " |");
            for (long y : edges) line.append(" ").append(Long.toHexString(f.applyAsLong(x, y) & mask));
            System.out.println(line);
        }
    }

    static void ints(String op, LongBinaryOperator f) {
        rows(op, 32, EDGES32, 0xffffffffL, f);
    }

    static void longs(String op, LongBinaryOperator f) {
        rows(op, 64, EDGES64, -1, f);
    }

    static void shorts(String op, LongBinaryOperator f) {
        rows(op, 16, EDGES16, 0xffff, f);
    }

    static long bit(boolean b) {
        return b ? 1 : 0;
    }

    public static void main(String[] args) {
        ints("Add", (x, y) -> (int) x + (int) y);
        longs("Add", (x, y) -> x + y);
        shorts("Add", (x, y) -> (short) ((short) x + (short) y));
        ints("Sub", (x, y) -> (int) x - (int) y);
        longs("Sub", (x, y) -> x - y);
        shorts("Sub", (x, y) -> (short) ((short) x - (short) y));
        ints("Mul", (x, y) -> (int) x * (int) y);
        longs("Mul", (x, y) -> x * y);
        shorts("Mul", (x, y) -> (short) ((short) x * (short) y));
        ints("Div", (x, y) -> y == 0 ? 0 : (int) x / (int) y);
        longs("Div", (x, y) -> y == 0 ? 0 : x / y);
        shorts("Div", (x, y) -> y == 0 ? 0 : (short) ((short) x / (short) y));
        ints("Rem", (x, y) -> y == 0 ? 0 : (int) x % (int) y);
        longs("Rem", (x, y) -> y == 0 ? 0 : x % y);
        shorts("Rem", (x, y) -> y == 0 ? 0 : (short) ((short) x % (short) y));
        ints("Shl", (x, y) -> (int) x << (int) y);
        longs("Shl", (x, y) -> x << y);
        shorts("Shl", (x, y) -> x << (y % 16));
        ints("Shr", (x, y) -> (int) x >> (int) y);
        longs("Shr", (x, y) -> x >> y);
        shorts("Shr", (x, y) -> (short) x >> (y % 16));
        ints("Ushr", (x, y) -> (int) x >>> (int) y);
        longs("Ushr", (x, y) -> x >>> y);
        shorts("Ushr", (x, y) -> (char) x >>> (y % 16));
        ints("BitAnd", (x, y) -> (int) x & (int) y);
        longs("BitAnd", (x, y) -> x & y);
        shorts("BitAnd", (x, y) -> x & y);
        ints("BitOr", (x, y) -> (int) x | (int) y);
        longs("BitOr", (x, y) -> x | y);
        shorts("BitOr", (x, y) -> x | y);
        ints("BitXor", (x, y) -> (int) x ^ (int) y);
        longs("BitXor", (x, y) -> x ^ y);
        shorts("BitXor", (x, y) -> x ^ y);
        ints("Less", (x, y) -> bit((int) x < (int) y));
        longs("Less", (x, y) -> bit(x < y));
        shorts("Less", (x, y) -> bit((short) x < (short) y));
        ints("Below", (x, y) -> bit(Integer.compareUnsigned((int) x, (int) y) < 0));
        longs("Below", (x, y) -> bit(Long.compareUnsigned(x, y) < 0));
        shorts("Below", (x, y) -> bit((char) x < (char) y));
        ints("Equal", (x, y) -> bit((int) x == (int) y));
        longs("Equal", (x, y) -> bit(x == y));
        shorts("Equal", (x, y) -> bit((char) x == (char) y));
    }
}
