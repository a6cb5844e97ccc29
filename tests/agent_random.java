// Threads nest random locks, in ascending order, and write down what they do, for tests/agents_java: java RandomLocks SEED THREADS STEPS LOG.
// The log has a line `thread NAME` for each thread, then a line `a LOCK` or `r LOCK` for each outermost acquire and release.
import java.io.PrintWriter;
import java.util.ArrayList;
import java.util.IdentityHashMap;
import java.util.List;
import java.util.Map;
import java.util.Random;
import java.util.concurrent.locks.Lock;
import java.util.concurrent.locks.ReentrantLock;
import java.util.concurrent.locks.ReentrantReadWriteLock;

class RandomLocks {
    static final int LOCKS = 12;
    static final int FIRST_LOCK = 100; // numbers of monitors are below
    static final int DEPTH = 8;
    static final Monitor[] monitors = new Monitor[LOCKS];
    static final Lock[] locks = new Lock[LOCKS];

    static class Monitor {
        final int number;

        Monitor(int number) {
            this.number = number;
        }

        synchronized void run(Worker worker, int depth) throws Refused {
            worker.begin(this, number);
            try {
                worker.steps(depth, number);
            } finally {
                worker.end(this, number);
            }
        }
    }

    static class Refused extends Exception {
        private static final long serialVersionUID = 1;
    }

    static class Worker implements Runnable {
        final Random random;
        final StringBuilder log = new StringBuilder();
        final Map<Object, Integer> depths = new IdentityHashMap<>();
        final List<Object> held = new ArrayList<>();
        final Map<Object, Integer> numbers = new IdentityHashMap<>();
        int left;

        Worker(long seed, int steps) {
            random = new Random(seed);
            left = steps;
        }

        void begin(Object lock, int number) {
            if (depths.merge(lock, 1, Integer::sum) == 1) log.append("a ").append(number).append('\n');
            held.add(lock);
            numbers.put(lock, number);
        }

        void end(Object lock, int number) {
            for (int at = held.size() - 1; at >= 0; at--) {
                if (held.get(at) != lock) continue;
                held.remove(at);
                break;
            }
            if (depths.merge(lock, -1, Integer::sum) == 0) log.append("r ").append(number).append('\n');
        }

        @Override
        public void run() {
            while (left > 0) {
                try {
                    steps(DEPTH, -1);
                } catch (Refused error) {
                    left--;
                }
            }
        }

        /** Some steps with locks above a number. */
        void steps(int depth, int above) throws Refused {
            for (int count = random.nextInt(4); count > 0 && depth > 0 && left-- > 0; count--) {
                int number = above + 1 + random.nextInt(3);
                int kind = random.nextInt(9);
                if (kind == 3) again();
                else if (kind == 4 && above >= 0 && random.nextInt(5) == 0) throw new Refused();
                else if (kind == 5) attempt(random.nextInt(LOCKS));
                else if (kind == 6) await();
                else if (kind == 7) caught(depth, above);
                else if (number < LOCKS) nest(kind, depth, number);
            }
        }

        void nest(int kind, int depth, int number) throws Refused {
            if (kind == 0) block(depth, number);
            else if (kind == 1) monitors[number].run(this, depth - 1);
            else if (kind == 2) lock(depth, number);
            else if (kind == 8) crosswise(depth, number);
        }

        void block(int depth, int number) throws Refused {
            synchronized (monitors[number]) {
                begin(monitors[number], number);
                try {
                    steps(depth - 1, number);
                } finally {
                    end(monitors[number], number);
                }
            }
        }

        void lock(int depth, int number) throws Refused {
            locks[number].lock();
            begin(locks[number], FIRST_LOCK + number);
            try {
                steps(depth - 1, number);
            } finally {
                end(locks[number], FIRST_LOCK + number);
                locks[number].unlock();
            }
        }

        /** The lock is released before the monitor that was acquired within it. */
        void crosswise(int depth, int number) throws Refused {
            locks[number].lock();
            begin(locks[number], FIRST_LOCK + number);
            synchronized (monitors[number]) {
                begin(monitors[number], number);
                end(locks[number], FIRST_LOCK + number);
                locks[number].unlock();
                try {
                    steps(depth - 2, number);
                } finally {
                    end(monitors[number], number);
                }
            }
        }

        /** Acquires a lock that it holds. */
        void again() throws Refused {
            if (held.isEmpty()) return;
            Object one = held.get(random.nextInt(held.size()));
            if (one instanceof Monitor) ((Monitor) one).run(this, 0);
            else {
                Lock lock = (Lock) one;
                lock.lock();
                begin(lock, numbers.get(lock));
                end(lock, numbers.get(lock));
                lock.unlock();
            }
        }

        /** Without another lock: under one, the trace has a marker. */
        void attempt(int number) {
            if (!held.isEmpty() || !locks[number].tryLock()) return;
            begin(locks[number], FIRST_LOCK + number);
            end(locks[number], FIRST_LOCK + number);
            locks[number].unlock();
        }

        /** Waits on the lock that it has acquired last: a wait for another one could deadlock. */
        void await() {
            Object last = held.isEmpty() ? null : held.get(held.size() - 1);
            if (!(last instanceof Monitor) || random.nextInt(4) > 0) return;
            log.append("r ").append(numbers.get(last)).append('\n');
            try {
                last.wait(0, 1000);
            } catch (InterruptedException error) {
                throw new IllegalStateException(error);
            }
            log.append("a ").append(numbers.get(last)).append('\n');
        }

        void caught(int depth, int above) {
            try {
                steps(depth - 1, above);
            } catch (Refused error) {
                left--;
            }
        }
    }

    /** Two threads have had each lock before the others begin: then each section is recorded. */
    static void useAll() {
        for (int at = 0; at < LOCKS; at++) {
            locks[at].lock();
            synchronized (monitors[at]) {
                locks[at].unlock();
            }
        }
    }

    public static void main(String[] words) throws Exception {
        for (int at = 0; at < LOCKS; at++) {
            monitors[at] = new Monitor(at);
            locks[at] = at % 3 == 0 ? new ReentrantReadWriteLock().writeLock() : new ReentrantLock(at % 3 == 1);
        }
        useAll();
        Thread first = new Thread(RandomLocks::useAll, "first");
        first.start();
        first.join();
        List<Worker> workers = new ArrayList<>();
        List<Thread> threads = new ArrayList<>();
        for (int at = 0; at < Integer.parseInt(words[1]); at++) {
            workers.add(new Worker(Long.parseLong(words[0]) * 100 + at, Integer.parseInt(words[2])));
            threads.add(new Thread(workers.get(at), "random " + at));
        }
        for (Thread thread : threads) thread.start();
        for (Thread thread : threads) thread.join();
        try (PrintWriter out = new PrintWriter(words[3])) {
            for (int at = 0; at < workers.size(); at++) out.print("thread random " + at + "\n" + workers.get(at).log);
        }
    }
}
