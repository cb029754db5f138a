/** A loop over integers. */
public class Loop$ {
    public static Loop$ $get() {
        return new Loop$();
    }

    public void main(String[] args) {
        int sum = 0;
        for (int i = 0; i < 10000000; i++) {
            sum = sum * 31 + (i ^ (sum >>> 7));
        }
        scalaw.rt.Run.print(scalaw.rt.Run.box(sum).toString());
    }
}
