package goodlock.recorder;

import java.io.IOException;
import java.io.RandomAccessFile;
import java.nio.ByteBuffer;
import java.nio.ByteOrder;
import java.nio.channels.FileChannel;

/** Maps the memory that the collector shares. It is apart from `Ring`, whose constant is then known to the compiler. */
public final class Mapping {
    static final int SIZE = 24_396_096;
    private static final int MAGIC_AT = 8;
    private static final int ATTACHED_AT = 144;
    private static final long MAGIC = 0x31676E69726C6467L;
    static ByteBuffer memory;

    private Mapping() {}

    /** Throws an exception that says why this memory cannot be used. */
    public static void open(String path) throws IOException {
        try (RandomAccessFile file = new RandomAccessFile(path, "rw")) {
            if (file.length() < SIZE) throw new IOException(path + " is no memory of a collector");
            ByteBuffer found = file.getChannel().map(FileChannel.MapMode.READ_WRITE, 0, SIZE).order(ByteOrder.nativeOrder());
            if (found.getLong(MAGIC_AT) != MAGIC) throw new IOException(path + " is no memory of this version's collector");
            if (found.getInt(ATTACHED_AT) != 0) throw new IOException(path + " is of another process, which is traced");
            memory = found;
        }
    }
}
