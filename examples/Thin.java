/** Static methods of ints without loops. Each says beside it which of its throws can be reached. */
class Thin {
    /** Reached, by two equal numbers. */
    static void same(int a, int b) {
        if (a == b) throw null;
    }

    /** Not reached. */
    static void xorSelf(int a) {
        if ((a ^ a) != 0) throw null;
    }

    /** Reached, by 1, 2 and 3. */
    static void nested(int a, int b, int c) {
        if (a == 1) {
            if (b == 2) {
                if (c == 3) throw null;
            }
        }
    }

    /** Not reached: 21 is taken away again. */
    static void xorChain(int a) {
        int x = a ^ 21;
        int y = x ^ 21;
        if (y != a) throw null;
    }

    /** Reached, by three numbers that make 77 together. */
    static void longChain(int a, int b, int c) {
        if ((a ^ b ^ c) == 77) throw null;
    }

    /** Reached, by a constant of one byte. */
    static void oneByte(int a) {
        if (a == -100) throw null;
    }

    /** Reached, by a constant of two bytes. */
    static void twoBytes(int a) {
        if (a == -30000) throw null;
    }

    /** Reached three times, by constants that are opcodes of their own. */
    static void smallConstants(int a) {
        if (a == -1) throw null;
        if (a == 0) throw null;
        if (a == 5) throw null;
    }

    /** Reached, by 7 and 8. */
    static void choice(int a, int b) {
        int m = a == 7 ? b : 9;
        if (m == 8) throw null;
    }

    /** Not reached: the choice gives 1 or 2. */
    static void closedChoice(int a) {
        int m = a == 0 ? 1 : 2;
        if (m == 3) throw null;
    }

    /** Reached, by 5. The method has a result. */
    static int withResult(int a) {
        if (a == 5) throw null;
        return a ^ 1;
    }

    /** Not reached: 9 does not differ from 9 in a bit. */
    static void contradiction(int a) {
        if (a == 9) {
            if ((a ^ 9) != 0) throw null;
        }
    }

    /** Neither is reached: two numbers change places. */
    static void swap(int a) {
        int x = a;
        int y = 90;
        x ^= y;
        y ^= x;
        x ^= y;
        if (x != 90) throw null;
        if (y != a) throw null;
    }

    /** Not reached: one of the two holds. */
    static void either(int a, int b) {
        if (a == 1 || b == 2) {
            if (a != 1) {
                if (b != 2) throw null;
            }
        }
    }

    /** Both are reached. */
    static void twoSites(int a, int b) {
        if (a == b) throw null;
        if (a == 3) throw null;
    }

    /** The second is not reached: the first throws before it. */
    static void hiddenSite(int a) {
        if (a == 3) throw null;
        if (a == 3) throw null;
    }

    /** Not reached: 4 is not 5. */
    static void never() {
        int x = 4;
        if (x == 5) throw null;
    }

    /** Reached, by no numbers at all. */
    static void always() {
        throw null;
    }

    /** Reached, by the number whose bits are all set. */
    static void allBits(int a) {
        if ((a ^ -1) == 0) throw null;
    }

    /** Reached. The locals have numbers above 3. */
    static int manyNumbers(int a, int b, int c, int d, int e, int f) {
        int g = a ^ b ^ c;
        int h = d ^ e ^ f;
        if (g == h) {
            if (g == 77) {
                if (a != d) throw null;
            }
        }
        return g ^ h;
    }

    /** Reached with one side of the join alone. */
    static void join(int a, int b) {
        int x;
        if (a == 0) {
            x = b;
        } else {
            x = b ^ 1;
        }
        if (x == 6) {
            if (b == 6) {
                if (a != 0) throw null;
            }
            if (b == 7) throw null;
        }
    }
}
