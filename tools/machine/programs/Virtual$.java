/** Virtual calls on objects of three classes. */
public class Virtual$ {
    public static Virtual$ $get() {
        return new Virtual$();
    }

    public int next(int n) {
        return n + 1;
    }

    public void main(String[] args) {
        Virtual$[] all = new Virtual$[3];
        all[0] = new Virtual$();
        all[1] = new VirtualTwice();
        all[2] = new VirtualXor();
        int n = 1;
        for (int i = 0; i < 5000000; i++) {
            n = all[n >>> 4 & 1].next(n) ^ all[i & 1 | 1].next(i);
        }
        scalaw.rt.Run.print(scalaw.rt.Run.box(n).toString());
    }
}

class VirtualTwice extends Virtual$ {
    public int next(int n) {
        return n + n;
    }
}

class VirtualXor extends VirtualTwice {
    public int next(int n) {
        return n ^ 85;
    }
}
