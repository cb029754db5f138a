import java.util.function.IntUnaryOperator;

/** One method for each form of instruction that javac makes, so that class files of it are read and written. */
public class Forms {
    interface Named { String name(); static String of(Named n) { return n.name(); } }

    static final long BIG = 0x1234_5678_9abcL;
    static final double HALF = 0.5;
    int[][] grid = new int[3][4];

    static int table(int n) { switch (n) { case 1: return 10; case 2: return 20; case 3: return 30; default: return 0; } }
    static int lookup(int n) { switch (n) { case -1000: return 1; case 7: return 2; case 1 << 20: return 3; default: return 0; } }
    static int byName(String s) { switch (s) { case "a": return 1; case "bb": return 2; default: return 0; } }
    static IntUnaryOperator plus(int k) { return n -> n + k; }
    static String text(Object o, long l, float f, double d, char c) { return "" + o + l + f + d + c + BIG + HALF + Forms.class.getName(); }
    static synchronized int guarded(Object lock, int n) {
        synchronized (lock) {
            try { return 100 / n; } catch (ArithmeticException e) { return -1; } finally { n++; }
        }
    }
    static int wide() {
        int s = 0;
        long a0=0,a1=1,a2=2,a3=3,a4=4,a5=5,a6=6,a7=7,a8=8,a9=9,b0=0,b1=1,b2=2,b3=3,b4=4,b5=5,b6=6,b7=7,b8=8,b9=9;
        long c0=0,c1=1,c2=2,c3=3,c4=4,c5=5,c6=6,c7=7,c8=8,c9=9,d0=0,d1=1,d2=2,d3=3,d4=4,d5=5,d6=6,d7=7,d8=8,d9=9;
        long e0=0,e1=1,e2=2,e3=3,e4=4,e5=5,e6=6,e7=7,e8=8,e9=9,f0=0,f1=1,f2=2,f3=3,f4=4,f5=5,f6=6,f7=7,f8=8,f9=9;
        long g0=0,g1=1,g2=2,g3=3,g4=4,g5=5,g6=6,g7=7,g8=8,g9=9,h0=0,h1=1,h2=2,h3=3,h4=4,h5=5,h6=6,h7=7,h8=8,h9=9;
        long i0=0,i1=1,i2=2,i3=3,i4=4,i5=5,i6=6,i7=7,i8=8,i9=9,j0=0,j1=1,j2=2,j3=3,j4=4,j5=5,j6=6,j7=7,j8=8,j9=9;
        long k0=0,k1=1,k2=2,k3=3,k4=4,k5=5,k6=6,k7=7,k8=8,k9=9,l0=0,l1=1,l2=2,l3=3,l4=4,l5=5,l6=6,l7=7,l8=8,l9=9;
        long m0=0,m1=1,m2=2,m3=3,m4=4,m5=5,m6=6,m7=7,m8=8,m9=9;
        int t = 300;
        for (int i = 0; i < t; i += 1000) s += i;
        return s + (int) (a0 + m9);
    }
    public static void main(String[] args) {
        Named n = () -> "\u0000\ud83d\ude00";
        System.out.println(text(n, table(2), lookup(7), byName("bb"), 'x') + plus(3).applyAsInt(4) + Named.of(n) + guarded(n, 0) + wide());
    }
}
