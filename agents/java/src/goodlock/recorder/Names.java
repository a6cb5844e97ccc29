package goodlock.recorder;

/** The names of objects: the field from which a site takes it, `bank.Account.lock`, or else its class. */
final class Names {
    private static final ClassValue<int[]> CLASSES = new ClassValue<>() {
        @Override
        protected int[] computeValue(Class<?> type) {
            return new int[] {Sites.nameText(typeName(type))};
        }
    };

    private Names() {}

    /** A lock of java.util.concurrent is known by its inner object of a class such as `ReentrantLock$NonfairSync`. */
    private static String typeName(Class<?> type) {
        return type.getName().replaceFirst("\\$(?:Nonfair|Fair)?Sync$", "");
    }

    /** Returns the number of the text; 0: none. */
    static int of(Object object, int site) {
        if (object instanceof Class) return Sites.nameText(((Class<?>) object).getName() + ".class");
        int field = Sites.fieldText(site);
        return field != 0 ? field : CLASSES.get(object.getClass())[0];
    }
}
