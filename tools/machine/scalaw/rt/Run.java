package scalaw.rt;

/** The machine's own methods, for a Java virtual machine, so that both run the same class files. */
public final class Run {
    private static final java.io.PrintStream OUT =
        new java.io.PrintStream(new java.io.BufferedOutputStream(new java.io.FileOutputStream(java.io.FileDescriptor.out)));

    public static void print(String text) {
        OUT.print(text);
    }

    public static String concat(String a, String b) {
        return String.valueOf(a).concat(String.valueOf(b));
    }

    public static Unit unit() {
        return Unit.VALUE;
    }

    public static Integer box(int n) {
        return new Integer(n);
    }

    public static Long box(long n) {
        return new Long(n);
    }

    public static Character box(char n) {
        return new Character(n);
    }

    public static Boolean box(boolean n) {
        return new Boolean(n);
    }

    /** Starts the object whose class the word names, as the machine's launcher does. */
    public static void main(String[] words) throws Exception {
        Class<?> type = Class.forName(words[0]);
        java.lang.reflect.Method get = type.getMethod("$get");
        java.lang.reflect.Method main = type.getMethod("main", String[].class);
        try {
            main.invoke(get.invoke(null), (Object) new String[0]);
        } catch (java.lang.reflect.InvocationTargetException e) {
            OUT.flush();
            System.err.println("exception " + e.getCause());
        }
        OUT.flush();
    }
}
