package goodlock.weaver;

import java.util.HashMap;
import java.util.Map;

/** Which methods of java.util.concurrent have a rule. So interfaces, subclasses, method references and calls by the platform are seen too. */
final class PlatformRules {
    static final String CONCURRENT = "java/util/concurrent/";
    static final String LOCKS = CONCURRENT + "locks/";
    private static final String ATOMIC = CONCURRENT + "atomic/Atomic";

    /* A class, then its methods, all with this name. */
    private static final String[] TABLE = {
        "locks/ReentrantLock lock:ACQUIRE lockInterruptibly:ACQUIRE tryLock:TRY unlock:RELEASE",
        "locks/ReentrantReadWriteLock$WriteLock lock:WRITE lockInterruptibly:WRITE tryLock:TRY_WRITE unlock:RELEASE_WRITE",
        "locks/ReentrantReadWriteLock$ReadLock lock:READ lockInterruptibly:READ tryLock:TRY_READ unlock:RELEASE_READ",
        "locks/StampedLock writeLock:WRITE writeLockInterruptibly:WRITE tryWriteLock:TRY_WRITE unlockWrite:RELEASE_WRITE"
            + " tryUnlockWrite:RELEASE_WRITE unstampedUnlockWrite:RELEASE_WRITE readLock:READ readLockInterruptibly:READ tryReadLock:TRY_READ"
            + " unlockRead:RELEASE_READ tryUnlockRead:RELEASE_READ unstampedUnlockRead:RELEASE_READ tryConvertToWriteLock:CONVERT"
            + " tryConvertToReadLock:CONVERT tryConvertToOptimisticRead:CONVERT",
        "locks/AbstractQueuedSynchronizer$ConditionObject await:WAIT awaitNanos:WAIT awaitUntil:WAIT awaitUninterruptibly:WAIT signal:SIGNAL"
            + " signalAll:SIGNAL",
        "Semaphore acquire:TAKE acquireUninterruptibly:TAKE tryAcquire:TAKE release:GIVE",
        "CountDownLatch countDown:GIVE await:TAKE",
        "CyclicBarrier await:GIVE_TAKE",
        "Phaser arrive:GIVE arriveAndDeregister:GIVE arriveAndAwaitAdvance:GIVE_TAKE awaitAdvance:TAKE awaitAdvanceInterruptibly:TAKE",
        "Exchanger exchange:GIVE_TAKE",
        "FutureTask set:GIVE setException:GIVE cancel:GIVE get:TAKE isDone:TAKE",
        "CompletableFuture completeValue:GIVE completeThrowable:GIVE completeNull:GIVE internalComplete:GIVE completeRelay:GIVE get:TAKE join:TAKE"
            + " getNow:TAKE isDone:TAKE",
        "ForkJoinTask fork:GIVE doExec:RUN setDone:GIVE trySetThrown:GIVE trySetCancelled:GIVE recordExceptionalCompletion:GIVE"
            + " abnormalCompletion:GIVE join:TAKE get:TAKE invoke:TAKE awaitDone:TAKE",
        "ForkJoinPool execute:GIVE_ARGUMENT submit:GIVE_ARGUMENT invoke:GIVE_ARGUMENT deregisterWorker:GIVE awaitTermination:TAKE isTerminated:TAKE",
        "ThreadPoolExecutor execute:GIVE_ARGUMENT processWorkerExit:GIVE awaitTermination:TAKE isTerminated:TAKE",
        "ScheduledThreadPoolExecutor delayedExecute:GIVE_ARGUMENT reExecutePeriodic:GIVE_ARGUMENT",
        "LinkedBlockingQueue put:GIVE_ARGUMENT offer:GIVE_ARGUMENT take:TAKE_RESULT poll:TAKE_RESULT",
        "ArrayBlockingQueue put:GIVE_ARGUMENT offer:GIVE_ARGUMENT take:TAKE_RESULT poll:TAKE_RESULT",
        "LinkedBlockingDeque putFirst:GIVE_ARGUMENT putLast:GIVE_ARGUMENT offerFirst:GIVE_ARGUMENT offerLast:GIVE_ARGUMENT takeFirst:TAKE_RESULT"
            + " takeLast:TAKE_RESULT pollFirst:TAKE_RESULT pollLast:TAKE_RESULT",
        "PriorityBlockingQueue offer:GIVE_ARGUMENT take:TAKE_RESULT poll:TAKE_RESULT",
        "SynchronousQueue put:GIVE_ARGUMENT offer:GIVE_ARGUMENT take:TAKE_RESULT poll:TAKE_RESULT",
        "LinkedTransferQueue put:GIVE_ARGUMENT offer:GIVE_ARGUMENT add:GIVE_ARGUMENT transfer:GIVE_ARGUMENT tryTransfer:GIVE_ARGUMENT"
            + " take:TAKE_RESULT poll:TAKE_RESULT",
        "ConcurrentLinkedQueue offer:GIVE_ARGUMENT poll:TAKE_RESULT",
        "ConcurrentLinkedDeque linkFirst:GIVE_ARGUMENT linkLast:GIVE_ARGUMENT pollFirst:TAKE_RESULT pollLast:TAKE_RESULT",
    };
    /* Of java.util.concurrent, but nothing in them is recorded, and they are called often. */
    private static final String[] WITHOUT_EVENTS = {"atomic/", "ConcurrentHashMap", "ConcurrentMap", "ConcurrentSkip", "CopyOnWrite", "TimeUnit",
        "ThreadLocalRandom"};
    private static final Map<String, Map<String, Rule>> RULES = read();

    private PlatformRules() {}

    private static Map<String, Map<String, Rule>> read() {
        Map<String, Map<String, Rule>> all = new HashMap<>();
        for (String row : TABLE) {
            String[] words = row.split(" ");
            Map<String, Rule> rules = new HashMap<>();
            for (int at = 1; at < words.length; at++) {
                String[] pair = words[at].split(":");
                rules.put(pair[0], Rule.valueOf(pair[1]));
            }
            all.put(CONCURRENT + words[0], rules);
        }
        return all;
    }

    /** Returns null if there is no rule. */
    static Rule of(String type, String method, boolean hasValues) {
        if (hasValues && type.startsWith(ATOMIC)) return ofAtomic(method);
        Map<String, Rule> rules = RULES.get(type);
        return rules == null ? null : rules.get(method);
    }

    private static Rule ofAtomic(String method) {
        switch (method) {
            case "get": case "getAcquire": return Rule.READ_VALUE;
            case "set": case "setRelease": case "lazySet": return Rule.WRITE_VALUE;
            default: return method.startsWith("getAnd") || method.startsWith("compareAnd") || method.endsWith("AndGet") ? Rule.CHANGE_VALUE : null;
        }
    }

    /** Whether a call of this class may reach a method with a rule. */
    static boolean mayRecord(String owner, boolean hasValues) {
        if (!owner.startsWith(CONCURRENT)) return false;
        if (hasValues && owner.startsWith(ATOMIC)) return true;
        for (String prefix : WITHOUT_EVENTS) if (owner.startsWith(prefix, CONCURRENT.length())) return false;
        return true;
    }
}
