// Small programs with known verdicts, for tests/agents_java: java Cases [NAME ..]. The threads of a case have its name. None deadlocks: a second
// thread starts when the first one has ended, which `isAlive` shows; no event orders them.
import java.io.ByteArrayOutputStream;
import java.util.ArrayList;
import java.util.Collections;
import java.util.Hashtable;
import java.util.List;
import java.util.Map;
import java.util.Vector;
import java.util.concurrent.BlockingQueue;
import java.util.concurrent.CompletableFuture;
import java.util.concurrent.ConcurrentHashMap;
import java.util.concurrent.CountDownLatch;
import java.util.concurrent.CyclicBarrier;
import java.util.concurrent.Exchanger;
import java.util.concurrent.ExecutorService;
import java.util.concurrent.Executors;
import java.util.concurrent.ForkJoinPool;
import java.util.concurrent.Future;
import java.util.concurrent.LinkedBlockingQueue;
import java.util.concurrent.Phaser;
import java.util.concurrent.Semaphore;
import java.util.concurrent.ThreadFactory;
import java.util.concurrent.TimeUnit;
import java.util.concurrent.atomic.AtomicBoolean;
import java.util.concurrent.locks.Condition;
import java.util.concurrent.locks.Lock;
import java.util.concurrent.locks.LockSupport;
import java.util.concurrent.locks.ReadWriteLock;
import java.util.concurrent.locks.ReentrantLock;
import java.util.concurrent.locks.ReentrantReadWriteLock;
import java.util.concurrent.locks.StampedLock;
import java.util.logging.Level;
import java.util.logging.Logger;
import java.util.logging.SimpleFormatter;
import java.util.logging.StreamHandler;

class Cases {
    interface Part {
        void run() throws Exception;
    }

    static final String[] ALL = {"inversion", "gate", "joined", "methods", "thrown", "statics", "philosophers", "handover", "alreadyTrue", "alreadyTrueCondition", "trueBefore", "waiting",
        "nestedWait", "recursive", "reentrant", "mixed", "interruptibly", "reference", "subclass", "backoff", "halfBackoff", "timed", "condition",
        "writers", "readers", "readerAndWriter", "downgrade", "stamped", "converted", "semaphore", "latch", "barrier", "phaser", "exchanger", "queue",
        "executor", "pool", "terminated", "forkJoin", "future", "park", "volatiles", "atomics", "stringBuffer", "synchronizedList", "vector",
        "hashtable", "compute", "logging", "overflow", "outOfOrder", "joinHolding", "privateLocks"};
    static String name;
    static int count;
    Object a = new Object();
    Object b = new Object();
    final Object gate = new Object();
    final ReentrantLock l = new ReentrantLock();
    final ReentrantLock m = new ReentrantLock();
    boolean ready;
    volatile boolean flag;

    public static void main(String[] words) throws Exception {
        for (String one : words.length > 0 ? words : ALL) {
            name = one;
            Cases.class.getDeclaredMethod(one).invoke(new Cases());
        }
        System.out.println("done");
    }

    static Thread start(Part part) {
        Thread thread = new Thread(() -> {
            try {
                part.run();
            } catch (Exception error) {
                throw new RuntimeException(error);
            }
        }, name);
        thread.start();
        return thread;
    }

    /** One after the other, without an order that the agent sees. */
    static void both(Part one, Part two) throws Exception {
        awaitEnd(start(one));
        awaitEnd(start(two));
    }

    static void awaitEnd(Thread thread) throws Exception {
        while (thread.isAlive()) Thread.sleep(1);
    }

    static void awaitRest(Thread thread) throws Exception {
        while (thread.getState() == Thread.State.RUNNABLE || thread.getState() == Thread.State.BLOCKED) Thread.sleep(1);
    }

    /** The second one begins when the first one waits, or has ended. */
    static void together(Part one, Part two) throws Exception {
        Thread first = start(one);
        awaitRest(first);
        Thread second = start(two);
        first.join();
        second.join();
    }

    static void nest(Object outer, Object inner) {
        synchronized (outer) {
            synchronized (inner) {
                count++;
            }
        }
    }

    static void nest(Lock outer, Lock inner) {
        outer.lock();
        inner.lock();
        count++;
        inner.unlock();
        outer.unlock();
    }

    static class Account {
        int money = 100;

        synchronized void take(int n) {
            if (n > money) throw new IllegalStateException("empty");
            money -= n;
        }

        synchronized void give(int n) {
            money += n;
        }

        synchronized void move(Account to, int n) {
            take(n);
            to.give(n);
        }

        @Override
        public synchronized String toString() {
            return "account with " + money;
        }
    }

    static class Statics {
        static synchronized void outer(Object inner) {
            synchronized (inner) {
                count++;
            }
        }

        static void inner(Object outer) {
            synchronized (outer) {
                synchronized (Statics.class) {
                    count++;
                }
            }
        }
    }

    static class Door extends ReentrantLock {
        private static final long serialVersionUID = 1;

        void pass(Lock inner) {
            lock();
            inner.lock();
            inner.unlock();
            unlock();
        }
    }

    // ---- monitors ----

    void inversion() throws Exception {
        both(() -> nest(a, b), () -> nest(b, a));
    }

    void gate() throws Exception {
        both(() -> { synchronized (gate) { nest(a, b); } }, () -> { synchronized (gate) { nest(b, a); } });
    }

    void joined() throws Exception {
        start(() -> nest(a, b)).join();
        start(() -> nest(b, a)).join();
    }

    void methods() throws Exception {
        Account one = new Account();
        Account two = new Account();
        both(() -> one.move(two, 1), () -> two.move(one, 2));
    }

    /** The method ends by an exception, and its monitor is free: it is no gate. */
    void thrown() throws Exception {
        Account account = new Account();
        Part fails = () -> { try { account.take(1000); } catch (IllegalStateException error) { count++; } };
        both(() -> { fails.run(); nest(a, b); }, () -> { fails.run(); nest(b, a); });
    }

    void statics() throws Exception {
        both(() -> Statics.outer(a), () -> Statics.inner(a));
    }

    void philosophers() throws Exception {
        Object[] forks = {new Object(), new Object(), new Object(), new Object()};
        for (int at = 0; at < forks.length; at++) {
            int one = at;
            awaitEnd(start(() -> nest(forks[one], forks[(one + 1) % forks.length])));
        }
    }

    void recursive() throws Exception {
        both(() -> { synchronized (a) { synchronized (a) { count++; } nest(a, b); } }, () -> nest(b, a));
    }

    /** The order of releases is another one than that of acquires. */
    void outOfOrder() throws Exception {
        both(() -> { l.lock(); m.lock(); l.unlock(); synchronized (a) { m.unlock(); } },
            () -> { synchronized (a) { m.lock(); m.unlock(); l.lock(); l.unlock(); } });
    }

    void overflow() throws Exception {
        Account account = new Account();
        both(() -> { try { deep(account); } catch (StackOverflowError error) { count++; } nest(a, b); }, () -> nest(b, a));
        synchronized (account) {
            count++;
        }
    }

    static int deep(Account account) {
        synchronized (account) {
            return deep(account) + 1;
        }
    }

    /** A thread joins another one, which wants the lock that the first one holds. */
    void joinHolding() throws Exception {
        Thread wants = start(() -> { synchronized (a) { count++; } });
        awaitEnd(wants);
        synchronized (a) {
            wants.join();
        }
    }

    /** What one thread locks without another lock is not recorded, until another thread locks it. */
    void privateLocks() throws Exception {
        both(() -> { for (int i = 0; i < 100; i++) synchronized (a) { count++; } nest(a, b); }, () -> nest(b, a));
    }

    // ---- waits ----

    void handover() throws Exception {
        together(() -> { synchronized (gate) { while (!ready) gate.wait(); } nest(b, a); },
            () -> { nest(a, b); synchronized (gate) { ready = true; gate.notifyAll(); } });
    }

    /** The second thread does not wait: it finds its predicate true. */
    void alreadyTrue() throws Exception {
        both(() -> { nest(a, b); synchronized (gate) { ready = true; synchronized (l) { gate.notifyAll(); } } },
            () -> { synchronized (gate) { while (!ready) gate.wait(); } nest(b, a); });
    }

    void alreadyTrueCondition() throws Exception {
        Condition isReady = l.newCondition();
        both(() -> { nest(a, b); l.lock(); ready = true; isReady.signal(); l.unlock(); },
            () -> { l.lock(); while (!ready) isReady.await(); l.unlock(); nest(b, a); });
    }

    /** The predicate is true before the first thread takes the locks, so the deadlock can happen. */
    void trueBefore() throws Exception {
        both(() -> { synchronized (gate) { ready = true; gate.notify(); } nest(a, b); },
            () -> { synchronized (gate) { while (!ready) gate.wait(); } nest(b, a); });
    }

    /** A wait releases the lock: it is no gate. */
    void waiting() throws Exception {
        both(() -> { synchronized (gate) { gate.wait(1); nest(a, b); } }, () -> nest(b, a));
    }

    /** It holds a while it acquires b again. */
    void nestedWait() throws Exception {
        both(() -> { synchronized (a) { synchronized (b) { b.wait(1); } } }, () -> nest(b, a));
    }

    void condition() throws Exception {
        Condition isReady = l.newCondition();
        together(() -> { l.lock(); while (!ready) isReady.await(); l.unlock(); nest(b, a); },
            () -> { nest(a, b); l.lock(); ready = true; isReady.signal(); l.unlock(); });
    }

    // ---- locks ----

    void reentrant() throws Exception {
        both(() -> nest(l, m), () -> nest(m, l));
    }

    void mixed() throws Exception {
        both(() -> { synchronized (a) { l.lock(); l.unlock(); } }, () -> { l.lock(); synchronized (a) { count++; } l.unlock(); });
    }

    void interruptibly() throws Exception {
        both(() -> { l.lockInterruptibly(); m.lock(); m.unlock(); l.unlock(); }, () -> nest(m, l));
    }

    void reference() throws Exception {
        Runnable locks = l::lock;
        Runnable unlocks = l::unlock;
        both(() -> { locks.run(); m.lock(); m.unlock(); unlocks.run(); }, () -> nest(m, l));
    }

    void subclass() throws Exception {
        Door door = new Door();
        both(() -> door.pass(l), () -> nest(l, door));
    }

    void backoff() throws Exception {
        both(() -> { l.lock(); if (m.tryLock()) m.unlock(); l.unlock(); }, () -> { m.lock(); if (l.tryLock()) l.unlock(); m.unlock(); });
    }

    void halfBackoff() throws Exception {
        both(() -> { l.lock(); if (m.tryLock()) m.unlock(); l.unlock(); }, () -> nest(m, l));
    }

    void timed() throws Exception {
        both(() -> { l.lock(); if (m.tryLock(1, TimeUnit.SECONDS)) m.unlock(); l.unlock(); }, () -> nest(m, l));
    }

    // ---- readers and writers ----

    final ReadWriteLock r = new ReentrantReadWriteLock();
    final ReadWriteLock s = new ReentrantReadWriteLock();

    void writers() throws Exception {
        both(() -> nest(r.writeLock(), s.writeLock()), () -> nest(s.writeLock(), r.writeLock()));
    }

    void readers() throws Exception {
        both(() -> nest(r.readLock(), s.readLock()), () -> nest(s.readLock(), r.readLock()));
    }

    void readerAndWriter() throws Exception {
        both(() -> nest(r.readLock(), l), () -> nest(l, r.writeLock()));
    }

    /** A writer becomes a reader, and holds the lock until it has read. */
    void downgrade() throws Exception {
        both(() -> { r.writeLock().lock(); r.readLock().lock(); r.writeLock().unlock(); l.lock(); l.unlock(); r.readLock().unlock(); },
            () -> nest(l, r.writeLock()));
    }

    void stamped() throws Exception {
        StampedLock stamped = new StampedLock();
        both(() -> { long stamp = stamped.writeLock(); l.lock(); l.unlock(); stamped.unlockWrite(stamp); },
            () -> { l.lock(); long stamp = stamped.writeLock(); stamped.unlock(stamp); l.unlock(); });
    }

    void converted() throws Exception {
        StampedLock stamped = new StampedLock();
        both(() -> { long stamp = stamped.tryConvertToWriteLock(stamped.readLock()); l.lock(); l.unlock(); stamped.unlockWrite(stamp); },
            () -> { l.lock(); stamped.asWriteLock().lock(); stamped.asWriteLock().unlock(); l.unlock(); });
    }

    // ---- who goes on after whom ----

    void semaphore() throws Exception {
        Semaphore free = new Semaphore(0);
        together(() -> { free.acquire(); nest(b, a); }, () -> { nest(a, b); free.release(); });
    }

    void latch() throws Exception {
        CountDownLatch done = new CountDownLatch(1);
        together(() -> { done.await(); nest(b, a); }, () -> { nest(a, b); done.countDown(); });
    }

    void barrier() throws Exception {
        CyclicBarrier met = new CyclicBarrier(2);
        together(() -> { nest(a, b); met.await(); }, () -> { met.await(); nest(b, a); });
    }

    void phaser() throws Exception {
        Phaser met = new Phaser(2);
        together(() -> { nest(a, b); met.arrive(); }, () -> { met.arriveAndAwaitAdvance(); nest(b, a); });
    }

    void exchanger() throws Exception {
        Exchanger<String> swap = new Exchanger<>();
        together(() -> { nest(a, b); swap.exchange("x"); }, () -> { swap.exchange("y"); nest(b, a); });
    }

    void queue() throws Exception {
        BlockingQueue<Object> items = new LinkedBlockingQueue<>();
        together(() -> { items.take(); nest(b, a); }, () -> { nest(a, b); items.put(new Object()); });
    }

    static ExecutorService executorOf(int threads) {
        String own = name;
        ThreadFactory factory = run -> new Thread(run, own);
        return Executors.newFixedThreadPool(threads, factory);
    }

    /** Each task comes after the result of the one before. */
    void executor() throws Exception {
        ExecutorService tasks = executorOf(2);
        tasks.submit(() -> nest(a, b)).get();
        tasks.submit(() -> nest(b, a)).get();
        tasks.shutdown();
    }

    void pool() throws Exception {
        ExecutorService tasks = executorOf(2);
        int before = count;
        Future<?> one = tasks.submit(() -> nest(a, b));
        while (count == before) Thread.sleep(1);
        Future<?> two = tasks.submit(() -> nest(b, a));
        one.get();
        two.get();
        tasks.shutdown();
    }

    void terminated() throws Exception {
        ExecutorService tasks = executorOf(1);
        tasks.execute(() -> nest(a, b));
        tasks.shutdown();
        tasks.awaitTermination(1, TimeUnit.HOURS);
        awaitEnd(start(() -> nest(b, a)));
    }

    void forkJoin() throws Exception {
        ForkJoinPool tasks = new ForkJoinPool(2);
        tasks.submit(() -> rename(() -> nest(a, b))).get();
        tasks.submit(() -> rename(() -> nest(b, a))).get();
        tasks.shutdown();
    }

    static void rename(Runnable run) {
        Thread.currentThread().setName(name);
        run.run();
    }

    void future() throws Exception {
        CompletableFuture<Integer> one = CompletableFuture.supplyAsync(() -> { rename(() -> nest(a, b)); return 1; });
        one.thenAcceptAsync(x -> rename(() -> nest(b, a))).join();
    }

    void park() throws Exception {
        Thread parks = start(() -> { while (!flag) LockSupport.park(); nest(b, a); });
        awaitRest(parks);
        awaitEnd(start(() -> { nest(a, b); flag = true; LockSupport.unpark(parks); }));
        awaitEnd(parks);
    }

    /** Only with --memory atomics the order is seen. */
    void volatiles() throws Exception {
        together(() -> { while (!flag) Thread.sleep(1); nest(b, a); }, () -> { nest(a, b); flag = true; });
    }

    void atomics() throws Exception {
        AtomicBoolean isDone = new AtomicBoolean();
        together(() -> { while (!isDone.get()) Thread.sleep(1); nest(b, a); }, () -> { nest(a, b); isDone.set(true); });
    }

    // ---- locks of the platform ----

    void stringBuffer() throws Exception {
        StringBuffer one = new StringBuffer("a");
        StringBuffer two = new StringBuffer("b");
        both(() -> one.append(two), () -> two.append(one));
    }

    void synchronizedList() throws Exception {
        List<Integer> one = Collections.synchronizedList(new ArrayList<>(List.of(1)));
        List<Integer> two = Collections.synchronizedList(new ArrayList<>(List.of(2)));
        both(() -> one.addAll(two), () -> two.addAll(one));
    }

    void vector() throws Exception {
        Vector<Integer> one = new Vector<>(List.of(1));
        Vector<Integer> two = new Vector<>(List.of(1));
        both(() -> one.equals(two), () -> two.equals(one));
    }

    void hashtable() throws Exception {
        Hashtable<Integer, Integer> one = new Hashtable<>(Map.of(1, 2));
        Hashtable<Integer, Integer> two = new Hashtable<>(Map.of(1, 2));
        both(() -> one.equals(two), () -> two.equals(one));
    }

    void compute() throws Exception {
        Map<String, Integer> one = new ConcurrentHashMap<>(Map.of("x", 1));
        Map<String, Integer> two = new ConcurrentHashMap<>(Map.of("x", 1));
        both(() -> one.compute("x", (k, v) -> two.compute("x", (l, w) -> w + 1)), () -> two.compute("x", (k, v) -> one.compute("x", (l, w) -> w + 1)));
    }

    /** The handler holds its lock while it asks the account for its text. */
    void logging() throws Exception {
        Logger log = Logger.getAnonymousLogger();
        log.setUseParentHandlers(false);
        log.addHandler(new StreamHandler(new ByteArrayOutputStream(), new SimpleFormatter()));
        Account account = new Account();
        both(() -> { synchronized (account) { log.log(Level.INFO, "in"); } }, () -> log.log(Level.INFO, "{0}", account));
    }

    // ---- deadlocks that happen, each alone ----

    /** Returns when both threads have passed, then waits for ever. */
    static void meet(CyclicBarrier met) {
        try {
            met.await();
        } catch (Exception error) {
            throw new RuntimeException(error);
        }
    }

    void deadlock() throws Exception {
        CyclicBarrier met = new CyclicBarrier(2);
        together(() -> { synchronized (a) { meet(met); nest(b, b); } }, () -> { synchronized (b) { meet(met); nest(a, a); } });
    }

    void deadlockOfLocks() throws Exception {
        CyclicBarrier met = new CyclicBarrier(2);
        together(() -> { l.lock(); meet(met); m.lock(); }, () -> { m.lock(); meet(met); l.lock(); });
    }

    void deadlockOfJoin() throws Exception {
        CyclicBarrier met = new CyclicBarrier(2);
        Thread wants = start(() -> { meet(met); nest(a, a); });
        Thread joins = start(() -> { synchronized (a) { meet(met); wants.join(); } });
        joins.join();
    }

    // ---- endings, each alone ----

    void exits() throws Exception {
        inversion();
        Runtime.getRuntime().addShutdownHook(new Thread(() -> System.out.println("hook")));
        System.exit(7);
    }

    void halts() throws Exception {
        inversion();
        Runtime.getRuntime().halt(8);
    }

    void throwsError() throws Exception {
        inversion();
        throw new IllegalStateException("on purpose");
    }

    void kills() throws Exception {
        inversion();
        new ProcessBuilder("kill", "-9", String.valueOf(ProcessHandle.current().pid())).inheritIO().start().waitFor();
    }

    void terminates() throws Exception {
        inversion();
        new ProcessBuilder("kill", String.valueOf(ProcessHandle.current().pid())).inheritIO().start().waitFor();
        Thread.sleep(60_000);
    }
}
