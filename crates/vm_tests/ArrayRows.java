import java.io.ByteArrayOutputStream;
import java.io.DataOutputStream;
import java.io.IOException;
import java.lang.invoke.MethodHandles;
import java.lang.reflect.Array;

/**
 * Prints src/array_rows.rt: what the JVM gives of an int that was stored into an array, without a cast before it.
 * Run it as `java ArrayRows.java >src/array_rows.rt` in this folder.
 */
class ArrayRows {
    private static final int[] INTS = {
        -2147483648, -65537, -65536, -40000, -32769, -32768, -257, -256, -200, -129, -128, -3, -2, -1, 0, 1, 2, 3, 127, 128, 200, 255,
        256, 257, 32767, 32768, 40000, 65535, 65536, 65537, 2147483647
    };

    private static final String[] TYPES = {"Z", "B", "C", "S", "I"};

    private static final Class<?>[] CLASSES = {boolean.class, byte.class, char.class, short.class, int.class};

    private static final String[] NAMES = {"bastore", "bastore", "castore", "sastore", "iastore"};

    private static final int[] STORES = {84, 84, 85, 86, 79};

    private static final int[] LOADS = {51, 51, 52, 53, 46};

    public static void main(String[] words) throws Exception {
        Class<?> made = MethodHandles.lookup().defineClass(written());
        System.out.println("// What the JVM gives of ints that were stored into arrays. `java ArrayRows.java` writes this file.");
        System.out.println("\n/// A store, a load, the element type, an int that is stored, and what is loaded.");
        System.out.println("pub(crate) const STORED: &str = \"");
        for (int type = 0; type < TYPES.length; type++) {
            Object array = Array.newInstance(CLASSES[type], 1);
            for (int number : INTS) {
                Object loaded = made.getMethod("f", array.getClass(), int.class).invoke(null, array, number);
                System.out.println("    " + NAMES[type] + " " + hexadecimal(STORES[type]) + " | load " + hexadecimal(LOADS[type])
                    + " | " + TYPES[type] + " | " + number + " | " + loaded);
            }
        }
        System.out.println("\";");
    }

    private static String hexadecimal(int opcode) {
        return String.format("%02x", opcode);
    }

    /** A class with a method for each type: it stores an int at the index 0 and loads what is there. */
    private static byte[] written() throws IOException {
        ByteArrayOutputStream bytes = new ByteArrayOutputStream();
        DataOutputStream out = new DataOutputStream(bytes);
        out.writeInt(0xcafebabe);
        out.writeInt(49);
        out.writeShort(7 + TYPES.length);
        text(out, "Stored");
        out.writeByte(7);
        out.writeShort(1);
        text(out, "java/lang/Object");
        out.writeByte(7);
        out.writeShort(3);
        text(out, "Code");
        text(out, "f");
        for (String type : TYPES) {
            text(out, "([" + type + "I)I");
        }
        out.writeShort(0x21);
        out.writeShort(2);
        out.writeShort(4);
        out.writeShort(0);
        out.writeShort(0);
        out.writeShort(TYPES.length);
        for (int type = 0; type < TYPES.length; type++) {
            out.writeShort(9);
            out.writeShort(6);
            out.writeShort(7 + type);
            out.writeShort(1);
            out.writeShort(5);
            // aload_0 iconst_0 iload_1, the store, aload_0 iconst_0, the load, ireturn
            int[] code = {42, 3, 27, STORES[type], 42, 3, LOADS[type], 172};
            out.writeInt(12 + code.length);
            out.writeShort(3);
            out.writeShort(2);
            out.writeInt(code.length);
            for (int opcode : code) {
                out.writeByte(opcode);
            }
            out.writeShort(0);
            out.writeShort(0);
        }
        out.writeShort(0);
        return bytes.toByteArray();
    }

    private static void text(DataOutputStream out, String text) throws IOException {
        out.writeByte(1);
        out.writeUTF(text);
    }
}
