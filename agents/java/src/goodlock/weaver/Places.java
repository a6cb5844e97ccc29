package goodlock.weaver;

/** Where the instructions of a changed method are, by their old places. */
final class Places {
    private final int[] targets;
    private final int[] moved;
    private final int[] starts;

    Places(Method method) throws TooLarge {
        targets = new int[method.length + 1];
        moved = new int[method.length + 1];
        starts = new int[method.length + 1];
        int to = method.entry().length;
        int afterEnter = -1;
        for (int place = 0, next; place < method.length; place = next) {
            next = method.next(place);
            targets[place] = to;
            starts[place] = afterEnter >= 0 ? afterEnter : to;
            moved[place] = to += method.before(place).length;
            to += size(method, place, next, to);
            afterEnter = method.operation(place) == Opcode.MONITORENTER ? to : -1;
            to += method.after(place).length;
        }
        targets[method.length] = moved[method.length] = starts[method.length] = to;
    }

    private static int size(Method method, int place, int next, int to) {
        byte[] instead = method.instead(place);
        int size = instead == null ? next - place : instead.length;
        return Opcode.isSwitch(method.operation(place)) ? size + (3 - to & 3) - (3 - place & 3) : size;
    }

    /** Where a jump to this place goes: to the code that was put before the instruction. */
    int target(int place) {
        return targets[place];
    }

    /** Where the instruction itself is. */
    int moved(int place) {
        return moved[place];
    }

    /** Where the range of a handler begins. If it begins after the enter of a monitor, it contains the call that records this: an error in the call
     *  must not leave the monitor entered. */
    int start(int place) {
        return starts[place];
    }

    int size() {
        return targets[targets.length - 1];
    }
}
