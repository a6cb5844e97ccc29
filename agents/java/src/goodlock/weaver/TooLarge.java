package goodlock.weaver;

/** A class or a method would be larger than a class file can say. */
final class TooLarge extends Exception {
    private static final long serialVersionUID = 1;

    TooLarge(String why) {
        super(why);
    }
}
