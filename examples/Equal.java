/** The first example: it throws where its two numbers are equal. */
class Equal {
    static void differ(int a, int b) {
        if (a == b) throw null;
    }
}
