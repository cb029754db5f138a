/** The sieve of Eratosthenes over an array. */
public class Sieve$ {
    public static Sieve$ $get() {
        return new Sieve$();
    }

    public void main(String[] args) {
        int size = 5000000;
        boolean[] composite = new boolean[size];
        int primes = 0;
        for (int i = 2; i < size; i++) {
            if (!composite[i]) {
                primes++;
                for (int k = i + i; k < size; k += i) {
                    composite[k] = true;
                }
            }
        }
        scalaw.rt.Run.print(scalaw.rt.Run.box(primes).toString());
    }
}
