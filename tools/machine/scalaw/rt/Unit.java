package scalaw.rt;

/** The class of the one value of Unit, for a Java virtual machine. */
public final class Unit {
    static final Unit VALUE = new Unit();

    private Unit() {}

    @Override
    public String toString() {
        return "()";
    }
}
