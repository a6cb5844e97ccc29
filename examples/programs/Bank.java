/**
 * Two tellers move money in opposite directions, and lock the two accounts in opposite orders. This program can deadlock. In this run the second
 * teller comes half a second later, so it does not.
 *
 * usage: agents/java/goodlock Bank.java
 */
class Bank {
    static class Account {
        int balance;

        Account(int balance) {
            this.balance = balance;
        }
    }

    static void transfer(Account giver, Account taker, int amount) {
        synchronized (giver) {
            synchronized (taker) {
                giver.balance -= amount;
                taker.balance += amount;
            }
        }
    }

    static void lateTeller(Account giver, Account taker, int amount) throws InterruptedException {
        Thread.sleep(500);
        transfer(giver, taker, amount);
    }

    public static void main(String[] words) throws InterruptedException {
        Account alice = new Account(100);
        Account bob = new Account(100);
        Thread early = new Thread(() -> transfer(alice, bob, 30), "early teller");
        Thread late = new Thread(() -> {
            try {
                lateTeller(bob, alice, 10);
            } catch (InterruptedException error) {
                throw new IllegalStateException(error);
            }
        }, "late teller");
        early.start();
        late.start();
        early.join();
        late.join();
        System.out.println("alice has " + alice.balance + ", bob has " + bob.balance);
    }
}
