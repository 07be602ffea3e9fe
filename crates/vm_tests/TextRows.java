import java.util.StringJoiner;

/**
 * Prints src/text_rows.rt: what the JVM answers for the methods of java.lang.String at edges.
 * Run it as `java TextRows.java >src/text_rows.rt` in this folder.
 */
class TextRows {
    private static final String[] TEXTS = {
        "", "a", "b", "ab", "abc", "abca", "bca", "\u0000", "ab\u0000", "\ud83d\ude00", "\ude00", "\ud83d", "\uffffa",
    };

    private static final int[] NUMBERS = {
        0, 1, -1, 9, 10, -9, -10, 99, 100, 65535, 65536, -32768, 1000000000, 999999999, 2147483647, -2147483647, -2147483648,
    };

    public static void main(String[] words) {
        System.out.println("// What the JVM answers for the methods of java.lang.String. `java TextRows.java` writes this file.");
        table("A text, its length, and its units one by one.", "READ", TextRows::read);
        table("A text, two places, and the part between them.", "PARTS", TextRows::parts);
        table("Two texts; then the one behind the other, whether they are the same, whether the first starts and ends with the"
            + " second,\n/// and how they compare.", "PAIRS", TextRows::pairs);
        table("A text, a unit, and the least place of it, or -1.", "PLACES", TextRows::places);
        table("A number, and its text.", "DECIMALS", TextRows::decimals);
    }

    private static void table(String meaning, String name, Runnable rows) {
        System.out.println("\n/// " + meaning + "\npub(crate) const " + name + ": &str = \"");
        rows.run();
        System.out.println("\";");
    }

    private static void row(Object... cells) {
        StringJoiner row = new StringJoiner(" | ");
        for (Object cell : cells) {
            row.add(cell instanceof String ? units((String) cell) : String.valueOf(cell));
        }
        System.out.println(("    " + row).stripTrailing());
    }

    private static String units(String text) {
        StringJoiner units = new StringJoiner(" ");
        for (char unit : text.toCharArray()) {
            units.add(String.format("%04x", (int) unit));
        }
        return units.toString();
    }

    private static void read() {
        for (String text : TEXTS) {
            StringBuilder read = new StringBuilder();
            for (int i = 0; i < text.length(); i++) {
                read.append(text.charAt(i));
            }
            row(text, text.length(), read.toString());
        }
    }

    private static void parts() {
        for (String text : new String[] {"", "a", "abca", "\ud83d\ude00"}) {
            for (int from = 0; from <= text.length(); from++) {
                for (int to = from; to <= text.length(); to++) {
                    row(text, from, to, text.substring(from, to));
                }
            }
        }
    }

    private static void pairs() {
        for (String a : TEXTS) {
            for (String b : TEXTS) {
                row(a, b, a.concat(b), a.equals(b), a.startsWith(b), a.endsWith(b), a.compareTo(b));
            }
        }
    }

    private static void places() {
        for (String text : TEXTS) {
            for (char unit : new char[] {'a', 'b', 'z', '\u0000', '\ude00', '\uffff'}) {
                row(text, String.valueOf(unit), text.indexOf(unit));
            }
        }
    }

    private static void decimals() {
        for (int number : NUMBERS) {
            row(number, Integer.toString(number));
        }
    }
}
