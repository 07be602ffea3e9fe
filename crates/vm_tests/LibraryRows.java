import java.util.StringJoiner;
import java.util.function.Supplier;

/**
 * Prints src/library_rows.rt: what the JVM answers for the library rows at edges.
 * Run it as `java LibraryRows.java >src/library_rows.rt` in this folder.
 */
class LibraryRows {
    private static final String[] TEXTS = {"", "abc", "ab\ud83d\ude00", null};

    private static final String[] OTHERS = {null, "", "a", "abc", "bc", "b", "\ude00"};

    private static final int[] PLACES = {-2147483648, -1, 0, 1, 2, 3, 4, 5, 2147483647};

    public static void main(String[] words) {
        System.out.println("// What the JVM answers for the library rows. `java LibraryRows.java` writes this file.");
        System.out.println("\n/// A row, its receiver, two operands, and the answer. Texts are units in hexadecimal.");
        System.out.println("pub(crate) const STRINGS: &str = \"");
        for (String text : TEXTS) {
            places(text);
            pairs(text);
        }
        values();
        System.out.println("\";");
        System.out.println("\n/// A row, the content of a StringBuilder, an operand, and the answer: the content after it, if none is given.");
        System.out.println("pub(crate) const BUILDERS: &str = \"");
        builders();
        System.out.println("\";");
    }

    private static void places(String text) {
        row("length", text, "", "", () -> text.length());
        row("isEmpty", text, "", "", () -> text.isEmpty());
        for (int place : PLACES) {
            row("charAt", text, place, "", () -> (int) text.charAt(place));
            row("tail", text, place, "", () -> text.substring(place));
        }
        for (int from : new int[] {-1, 0, 1, 2, 3, 4}) {
            for (int to : new int[] {-1, 0, 1, 2, 3, 4, 5}) {
                row("substring", text, from, to, () -> text.substring(from, to));
            }
        }
        for (int unit : new int[] {0, 97, 98, 122, 0xd83d, 0xde00, 65535}) {
            row("indexOf", text, unit, "", () -> text.indexOf((char) unit));
        }
    }

    private static void pairs(String text) {
        for (String other : OTHERS) {
            row("concat", text, other, "", () -> text.concat(other));
            row("equals", text, other, "", () -> text.equals(other));
            row("startsWith", text, other, "", () -> text.startsWith(other));
            row("endsWith", text, other, "", () -> text.endsWith(other));
            row("compareTo", text, other, "", () -> text.compareTo(other));
        }
    }

    private static void values() {
        for (int number : new int[] {0, -1, 10, 65536 + 97, 2147483647, -2147483648}) {
            row("ofInt", "", number, "", () -> String.valueOf(number));
            row("ofChar", "", number, "", () -> String.valueOf((char) number));
        }
        row("ofBoolean", "", 0, "", () -> String.valueOf(false));
        row("ofBoolean", "", 1, "", () -> String.valueOf(true));
    }

    private static void builders() {
        for (String content : new String[] {"", "abc"}) {
            builder("length", content, "", b -> b.length());
            builder("toString", content, "", b -> b.toString());
            for (int place : PLACES) {
                builder("charAt", content, place, b -> (int) b.charAt(place));
            }
            for (String other : OTHERS) {
                builder("appendText", content, other, b -> b.append(other));
            }
            for (int number : new int[] {0, -1, 65536 + 97, -2147483648}) {
                builder("appendInt", content, number, b -> b.append(number));
                builder("appendChar", content, number, b -> b.append((char) number));
            }
            builder("appendBoolean", content, 0, b -> b.append(false));
            builder("appendBoolean", content, 1, b -> b.append(true));
        }
        for (String text : OTHERS) {
            row3("initText", "", text, () -> new StringBuilder(text));
        }
        row3("init", "", "", () -> new StringBuilder());
    }

    private interface Use {
        Object of(StringBuilder builder);
    }

    private static void builder(String name, String content, Object operand, Use use) {
        row3(name, content, operand, () -> use.of(new StringBuilder(content)));
    }

    private static void row(String name, String text, Object first, Object second, Supplier<Object> call) {
        print(name, cell(text), cell(first), cell(second), answer(call));
    }

    private static void row3(String name, String content, Object operand, Supplier<Object> call) {
        print(name, cell(content), cell(operand), answer(call));
    }

    private static String answer(Supplier<Object> call) {
        try {
            Object answer = call.get();
            if (answer instanceof Boolean) {
                return (Boolean) answer ? "1" : "0";
            }
            return answer instanceof Integer ? String.valueOf(answer) : "text " + units(answer.toString());
        } catch (NullPointerException e) {
            return "null";
        } catch (IndexOutOfBoundsException e) {
            return "strindex";
        }
    }

    private static String cell(Object cell) {
        return cell == null ? "null" : cell instanceof String ? units((String) cell) : String.valueOf(cell);
    }

    private static String units(String text) {
        StringJoiner units = new StringJoiner(" ");
        for (char unit : text.toCharArray()) {
            units.add(String.format("%04x", (int) unit));
        }
        return units.toString();
    }

    private static void print(String... cells) {
        System.out.println(("    " + String.join(" | ", cells)).stripTrailing());
    }
}
