// Clients of a database move money between the accounts of one table, for bench/java: java DatabaseLoad URL CLIENTS TRANSACTIONS.
import java.sql.Connection;
import java.sql.DriverManager;
import java.sql.PreparedStatement;
import java.sql.ResultSet;
import java.sql.SQLException;
import java.sql.Statement;
import java.util.Random;

class DatabaseLoad {
    static final int ACCOUNTS = 100;

    public static void main(String[] words) throws Exception {
        String url = words[0];
        int count = Integer.parseInt(words[2]);
        try (Connection all = DriverManager.getConnection(url); Statement statement = all.createStatement()) {
            statement.execute("CREATE TABLE account (id INT PRIMARY KEY, money INT)");
            for (int at = 0; at < ACCOUNTS; at++) statement.execute("INSERT INTO account VALUES (" + at + ", 100)");
        }
        Thread[] clients = new Thread[Integer.parseInt(words[1])];
        for (int at = 0; at < clients.length; at++) {
            Random random = new Random(at);
            clients[at] = new Thread(() -> run(url, count, random), "client " + at);
        }
        Loads.measure(clients);
        try (Connection all = DriverManager.getConnection(url); Statement statement = all.createStatement();
                ResultSet sum = statement.executeQuery("SELECT SUM(money) FROM account")) {
            sum.next();
            System.out.println("sum " + sum.getInt(1));
        }
    }

    static void run(String url, int count, Random random) {
        try (Connection own = DriverManager.getConnection(url)) {
            own.setAutoCommit(false);
            for (int left = count; left > 0; left--) move(own, random.nextInt(ACCOUNTS), random.nextInt(ACCOUNTS));
        } catch (SQLException error) {
            throw new IllegalStateException(error);
        }
    }

    static void move(Connection own, int from, int to) throws SQLException {
        try (PreparedStatement change = own.prepareStatement("UPDATE account SET money = money + ? WHERE id = ?")) {
            for (int step = -1; step <= 1; step += 2) {
                change.setInt(1, step);
                change.setInt(2, step < 0 ? Math.min(from, to) : Math.max(from, to));
                change.executeUpdate();
            }
            own.commit();
        } catch (SQLException error) { // the database has refused it: another client has these accounts
            own.rollback();
        }
    }
}
