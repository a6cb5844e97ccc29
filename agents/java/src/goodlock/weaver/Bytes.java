package goodlock.weaver;

import java.io.ByteArrayOutputStream;

/** Bytes of a class file that are being written. */
final class Bytes {
    private final ByteArrayOutputStream out = new ByteArrayOutputStream();

    Bytes u1(int value) {
        out.write(value);
        return this;
    }

    Bytes u2(int value) {
        return u1(value >> 8).u1(value);
    }

    Bytes u4(int value) {
        return u2(value >>> 16).u2(value);
    }

    Bytes raw(byte[] from, int start, int length) {
        out.write(from, start, length);
        return this;
    }

    Bytes raw(byte[] all) {
        return raw(all, 0, all.length);
    }

    int size() {
        return out.size();
    }

    byte[] toArray() {
        return out.toByteArray();
    }
}
