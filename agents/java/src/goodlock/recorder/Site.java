package goodlock.recorder;

/** A place in the program or the platform at which woven code records something. */
final class Site {
    final String file;
    final int line;
    final String type; // bank.Account
    final String method;
    final String field; // from which the lock is taken there, `bank.Account.lock`; null: not known
    final boolean isOfPlatform;
    private int[] callers; // this line; null: not used yet
    private int fieldText = -1;

    Site(boolean isOfPlatform, String file, int line, String type, String method, String field) {
        this.isOfPlatform = isOfPlatform;
        this.file = file;
        this.line = line;
        this.type = type;
        this.method = method;
        this.field = field;
    }

    int[] callers() {
        if (callers == null) callers = new int[] {Sites.text(Lines.text(isOfPlatform, file, line, type, method))};
        return callers;
    }

    int fieldText() {
        if (fieldText < 0) fieldText = field == null ? 0 : Sites.nameText(field);
        return fieldText;
    }
}
