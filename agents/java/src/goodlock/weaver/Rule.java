package goodlock.weaver;

/** What is recorded of a method of the platform, whose body is changed. */
enum Rule {
    /** At the return the lock is held, or if the result is true. The lock is the object, or its field `sync`, which its conditions know. */
    ACQUIRE, TRY, RELEASE,
    WRITE, TRY_WRITE, RELEASE_WRITE,
    READ, TRY_READ, RELEASE_READ,
    /** The result is a stamp made from the argument, a stamp; 0: the call has failed. */
    CONVERT,
    /** A wait on a condition. */
    WAIT,
    /** The object hands over: at the entry, or at the return if the result is not false, or both. */
    GIVE, TAKE, GIVE_TAKE,
    /** The object is a condition, which is signalled. */
    SIGNAL,
    /** The first argument hands over, at the entry; the result, at the return. */
    GIVE_ARGUMENT, TAKE_RESULT,
    /** The object is a task that runs: it was given to this thread. */
    RUN,
    /** The object is an atomic value: a write gives, a read takes. Only calls by the program count. */
    WRITE_VALUE, READ_VALUE, CHANGE_VALUE;

    boolean isOfReader() {
        return this == READ || this == TRY_READ || this == RELEASE_READ;
    }

    boolean isOfWriter() {
        return this == WRITE || this == TRY_WRITE || this == RELEASE_WRITE;
    }

    boolean releases() {
        return this == RELEASE || this == RELEASE_WRITE || this == RELEASE_READ;
    }

    boolean tries() {
        return this == TRY || this == TRY_WRITE || this == TRY_READ;
    }

    boolean acquires() {
        return this == ACQUIRE || this == WRITE || this == READ || tries();
    }
}
