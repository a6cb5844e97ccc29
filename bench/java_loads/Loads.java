// Shared by the loads of bench/java.
import java.io.InputStream;
import java.net.URI;
import java.util.Locale;

class Loads {
    /** Runs threads, and prints how long it took. */
    static void measure(Thread[] threads) throws InterruptedException {
        long since = System.nanoTime();
        for (Thread thread : threads) thread.start();
        for (Thread thread : threads) thread.join();
        System.out.printf(Locale.ROOT, "load %.2f s%n", (System.nanoTime() - since) / 1e9);
    }

    /** Clients that ask a server for a page. */
    static void ask(int port, int clients, int requests) throws InterruptedException {
        Thread[] threads = new Thread[clients];
        for (int at = 0; at < clients; at++) threads[at] = new Thread(() -> ask(port, requests), "client " + at);
        measure(threads);
    }

    private static void ask(int port, int requests) {
        for (int left = requests; left > 0; left--) {
            try (InputStream page = URI.create("http://127.0.0.1:" + port + "/").toURL().openStream()) {
                if (page.readAllBytes().length == 0) throw new IllegalStateException("an empty page");
            } catch (java.io.IOException error) {
                throw new IllegalStateException(error);
            }
        }
    }
}
