/** Short strings joined, and many lines put. */
public class Texts$ {
    public static Texts$ $get() {
        return new Texts$();
    }

    public void main(String[] args) {
        for (int i = 0; i < 300000; i++) {
            String line = scalaw.rt.Run.concat("line ", scalaw.rt.Run.box(i).toString());
            scalaw.rt.Run.print(scalaw.rt.Run.concat(line, "\n"));
        }
    }
}
