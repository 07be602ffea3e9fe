import java.io.BufferedReader;
import java.io.InputStreamReader;
import java.lang.reflect.InvocationTargetException;
import java.lang.reflect.Method;

/** Reads lines `CLASS METHOD NUMBER..`, calls each static method of ints, and prints what it throws, or `returns`. */
class Throws {
    public static void main(String[] words) throws Exception {
        BufferedReader lines = new BufferedReader(new InputStreamReader(System.in));
        for (String line = lines.readLine(); line != null; line = lines.readLine()) {
            System.out.println(called(line.split(" ")));
        }
    }

    private static String called(String[] words) throws Exception {
        Class<?>[] types = new Class<?>[words.length - 2];
        Object[] numbers = new Object[words.length - 2];
        for (int i = 0; i < types.length; i++) {
            types[i] = int.class;
            numbers[i] = Integer.valueOf(words[i + 2]);
        }
        Method method = Class.forName(words[0]).getDeclaredMethod(words[1], types);
        method.setAccessible(true);
        try {
            method.invoke(null, numbers);
            return "returns";
        } catch (InvocationTargetException e) {
            return e.getCause().getClass().getName();
        }
    }
}
