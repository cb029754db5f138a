/** Recursive calls. */
public class Calls$ {
    public static Calls$ $get() {
        return new Calls$();
    }

    static int fibonacci(int n) {
        if (n < 2) {
            return 1;
        }
        return fibonacci(n - 1) + fibonacci(n - 2);
    }

    public void main(String[] args) {
        scalaw.rt.Run.print(scalaw.rt.Run.box(fibonacci(32)).toString());
    }
}
