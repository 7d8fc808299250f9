import com.zaxxer.hikari.HikariConfig;
import com.zaxxer.hikari.HikariDataSource;
import java.util.ArrayList;
import java.util.concurrent.CountDownLatch;
import java.util.concurrent.Executors;
import java.util.concurrent.Future;
import javax.sql.DataSource;
import org.mariadb.jdbc.MariaDbPoolDataSource;

/**
 * Thirty connections at once of HikariCP's pool, or of MariaDB's, each with local transactions; prints how many were
 * committed. Words: the port, and `hikari` or `mariadb`.
 */
public final class Pool {
    public static void main(String[] words) throws Exception {
        String address = "jdbc:mariadb://127.0.0.1:" + words[0] + "/db?maxPoolSize=30&user=root";
        if (words[1].equals("mariadb")) {
            try (var source = new MariaDbPoolDataSource(address)) {
                work(source);
            }
            return;
        }
        HikariConfig settings = new HikariConfig();
        settings.setJdbcUrl(address);
        settings.setMaximumPoolSize(30);
        settings.setMinimumIdle(30);
        settings.setConnectionTestQuery("SELECT 1");
        try (var source = new HikariDataSource(settings)) {
            work(source);
        }
    }

    static void work(DataSource source) throws Exception {
        var threads = Executors.newFixedThreadPool(30);
        var taken = new CountDownLatch(30);
        var works = new ArrayList<Future<Integer>>();
        for (int number = 0; number < 30; number++) {
            String key = "row " + number;
            works.add(threads.submit(() -> work(source, key, taken)));
        }
        int committed = 0;
        for (var it : works) {
            committed += it.get();
        }
        threads.shutdown();
        System.out.println("committed " + committed);
    }

    static int work(DataSource source, String key, CountDownLatch taken) throws Exception {
        int committed = 0;
        try (var connection = source.getConnection()) {
            connection.setAutoCommit(false);
            committed = work(connection, key, taken);
            connection.setAutoCommit(true);
        }
        return committed;
    }

    static int work(java.sql.Connection connection, String key, CountDownLatch taken) throws Exception {
        int committed = 0;
        try (var put = connection.prepareStatement("PUT ?,?"); var get = connection.prepareStatement("GET ?")) {
            taken.countDown();
            taken.await();
            for (int turn = 0; turn < 10; turn++) {
                put.setString(1, key);
                put.setString(2, "" + turn);
                if (put.executeUpdate() != 1) {
                    throw new IllegalStateException("no count");
                }
                connection.commit();
                get.setString(1, key);
                try (var rows = get.executeQuery()) {
                    rows.next();
                    committed += rows.getString(1).equals("" + turn) ? 1 : 0;
                }
                connection.rollback();
            }
        }
        return committed;
    }
}
