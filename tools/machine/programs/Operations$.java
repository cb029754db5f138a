/** One value of each instruction at edges, and each exception thrown and caught. */
public class Operations$ {
    static int seen;
    static long wide;
    int own;
    long far;
    Object held;

    public static Operations$ $get() {
        return new Operations$();
    }

    static void say(String text) {
        scalaw.rt.Run.print(scalaw.rt.Run.concat(text, "\n"));
    }

    static void say(int n) {
        say(scalaw.rt.Run.box(n).toString());
    }

    static void say(long n) {
        say(scalaw.rt.Run.box(n).toString());
    }

    static void ints(int a, int b) {
        say(a + b);
        say(a - b);
        say(a * b);
        say(a & b);
        say(a | b);
        say(a ^ b);
        say(a << b);
        say(a >> b);
        say(a >>> b);
        say(-a);
        say((byte) a);
        say((char) a);
        say((short) a);
        say((long) a);
        if (b != 0) {
            say(a / b);
            say(a % b);
        }
        say(a < b ? 1 : 0);
        say(a <= b ? 1 : 0);
        say(a > b ? 1 : 0);
        say(a >= b ? 1 : 0);
        say(a == b ? 1 : 0);
        say(a != b ? 1 : 0);
        say(a < 0 ? 1 : a > 0 ? 2 : 3);
        say(a <= 0 ? 1 : 0);
        say(a >= 0 ? 1 : 0);
    }

    static void longs(long a, long b) {
        say(a + b);
        say(a - b);
        say(a * b);
        say(a & b);
        say(a | b);
        say(a ^ b);
        say(a << (int) b);
        say(a >> (int) b);
        say(a >>> (int) b);
        say(-a);
        say((int) a);
        if (b != 0) {
            say(a / b);
            say(a % b);
        }
        say(a < b ? 1 : a > b ? 2 : 3);
    }

    static int table(int n) {
        switch (n) {
            case -1: return 10;
            case 0: return 20;
            case 1: return 30;
            case 2: return 40;
            default: return 50;
        }
    }

    static int lookup(int n) {
        switch (n) {
            case -1000000: return 1;
            case 7: return 2;
            case 2000000000: return 3;
            default: return 4;
        }
    }

    static int depth(int n) {
        return n == 0 ? 0 : 1 + depth(n - 1);
    }

    static long mixed(int a, long b, Object c, long d, int e) {
        return a + b * 3 + d * 5 + e * 7L + (c == null ? 11 : 13);
    }

    void fields() {
        own = 5;
        own += 37;
        far = 1L << 40;
        far -= own;
        say(own);
        say(far);
        seen = -3;
        seen++;
        wide = far * seen;
        say(seen);
        say(wide);
        held = this;
        say(held == this ? 1 : 0);
        say(held != null ? 1 : 0);
    }

    static void arrays() {
        int[] a = new int[5];
        long[] b = new long[3];
        char[] c = new char[4];
        boolean[] d = new boolean[9];
        Object[] e = new Object[2];
        Object[] f = new Operations$[3];
        int[][] g = new int[3][];
        a[4] = -7;
        a[a[4] + 9] += 5;
        b[2] = Long.MIN_VALUE;
        c[3] = (char) 65535;
        d[8] = true;
        e[1] = a;
        f[0] = new Operations$();
        g[2] = a;
        say(a[4] + a[2] + a.length);
        say(b[2]);
        say(c[3] + c[0]);
        say(d[8] ? 1 : 0);
        say(d[7] ? 1 : 0);
        say(e[1] == a ? 1 : 0);
        say(g[2][4] + g.length);
        say(e instanceof Object[] ? 1 : 0);
        say(f instanceof Operations$[] ? 1 : 0);
        say((Object) a instanceof long[] ? 1 : 0);
        say((Object) g instanceof Object[] ? 1 : 0);
        say(null instanceof Object ? 1 : 0);
        say(((int[]) e[1])[4]);
    }

    static void fault(int which) {
        int zero = 0;
        Object none = null;
        Object text = "text";
        Object[] many = new Operations$[1];
        switch (which) {
            case 0: say(1 / zero); break;
            case 1: say(1L % zero); break;
            case 2: say(none.equals(none) ? 1 : 0); break;
            case 3: say(new int[2].length + new int[zero - 1].length); break;
            case 4: say(new long[2].length + (int) (new long[2])[2 + zero]); break;
            case 5: say(((Operations$) text).own); break;
            case 6: many[0] = text; break;
            case 7: ((Operations$) none).own = 1; break;
            case 8: throw new IllegalStateException("thrown");
            case 9: say("abc".charAt(3)); break;
            case 10: say("abc".substring(2, 1)); break;
            case 11: say("abc".compareTo((String) none)); break;
            case 12: throw (RuntimeException) none;
            default: say(((int[]) none).length);
        }
        say("no fault");
    }

    static int caught(int which) {
        try {
            fault(which);
            return 0;
        } catch (ArithmeticException e) {
            say(e.getMessage());
            return 1;
        } catch (NullPointerException e) {
            return 2;
        } catch (NegativeArraySizeException e) {
            return 3;
        } catch (ArrayIndexOutOfBoundsException e) {
            return 4;
        } catch (StringIndexOutOfBoundsException e) {
            return 5;
        } catch (IndexOutOfBoundsException e) {
            return 6;
        } catch (ClassCastException e) {
            return 7;
        } catch (ArrayStoreException e) {
            return 8;
        } catch (RuntimeException e) {
            say(e.toString());
            return 9;
        } finally {
            seen += 1;
        }
    }

    static void strings() {
        String a = scalaw.rt.Run.concat("ab", null);
        say(a);
        say(a.length());
        say(a.charAt(3));
        say(a.substring(1, 4));
        say(a.isEmpty() ? 1 : 0);
        say(a.compareTo("abc"));
        say(a.compareTo("abnul"));
        say(a.equals("abnull") ? 1 : 0);
        say(scalaw.rt.Run.box(7).equals(scalaw.rt.Run.box(7)) ? 1 : 0);
        say(scalaw.rt.Run.box('x').toString());
        say(scalaw.rt.Run.box(1 < 2).toString());
        say("\u00e9\u20ac\ud83d\ude00");
    }

    public void main(String[] args) {
        int[] numbers = {0, 1, -1, 7, -7, 33, Integer.MAX_VALUE, Integer.MIN_VALUE, 65535, -65536, 200};
        for (int i = 0; i < numbers.length; i++) {
            for (int k = 0; k < numbers.length; k++) {
                ints(numbers[i], numbers[k]);
                longs((long) numbers[i] * 4294967297L, (long) numbers[k] << 20);
                longs(numbers[i], numbers[k]);
            }
        }
        longs(Long.MIN_VALUE, -1L);
        longs(Long.MIN_VALUE, 65L);
        for (int n = -2; n < 4; n++) {
            say(table(n));
            say(lookup(n * 1000000 + (n == 3 ? -2999993 : 0)));
        }
        say(lookup(2000000000));
        say(depth(2000));
        say(mixed(1, 2L, null, 3L, 4));
        say(mixed(1, -2L, this, 1L << 50, -4));
        fields();
        arrays();
        strings();
        for (int which = 0; which < 14; which++) {
            say(caught(which));
        }
        say(seen);
        throw new UnsupportedOperationException("the end");
    }
}
