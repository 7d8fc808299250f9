import bitronix.tm.TransactionManagerServices;
import bitronix.tm.resource.jdbc.PoolingDataSource;
import java.sql.Connection;
import java.sql.SQLException;
import java.util.concurrent.ThreadLocalRandom;

/**
 * Moves amounts between accounts of two stores, by four threads with transactions of Bitronix, until it is killed; or
 * recovers what an earlier process left over, and ends.
 *
 * <p>Words: the folder of the journal, the two ports, and `recover` or `move`. Accounts are the rows 0 to 9 of both
 * stores, and no row is 0.
 */
public final class Soak {
    static PoolingDataSource store(String name, String port) {
        var source = new PoolingDataSource();
        source.setUniqueName(name);
        source.setClassName("org.mariadb.jdbc.MariaDbDataSource");
        source.getDriverProperties().setProperty("url", "jdbc:mariadb://127.0.0.1:" + port + "/db");
        source.getDriverProperties().setProperty("user", "root");
        source.setMaxPoolSize(8);
        source.init();
        return source;
    }

    static void add(Connection connection, int account, int amount) throws SQLException {
        try (var statement = connection.createStatement()) {
            int held = 0;
            try (var rows = statement.executeQuery("GET '" + account + "'")) {
                if (rows.next()) {
                    held = Integer.parseInt(rows.getString(1));
                }
            }
            statement.execute("PUT '" + account + "','" + (held + amount) + "'");
        }
    }

    public static void main(String[] words) throws Exception {
        var settings = TransactionManagerServices.getConfiguration();
        settings.setServerId("soak");
        settings.setLogPart1Filename(words[0] + "/btm1.tlog");
        settings.setLogPart2Filename(words[0] + "/btm2.tlog");
        // Bitronix 2.1.4 forgets decisions once a part of its journal is full (docs/BENCH.md, 'What was seen in
        // Bitronix'). So the parts are large, and only decisions and their ends are kept: 126 bytes a transaction. The
        // test looks at the end whether none got full.
        settings.setMaxLogSizeInMb(64);
        settings.setFilterLogStatus(true);
        var one = store("one", words[1]);
        var two = store("two", words[2]);
        var manager = TransactionManagerServices.getTransactionManager();
        if (words[3].equals("recover")) {
            TransactionManagerServices.getRecoverer().run();
            manager.shutdown();
            return;
        }
        for (int number = 0; number < 4; number++) {
            new Thread(() -> move(manager, one, two)).start();
        }
    }

    static void move(bitronix.tm.BitronixTransactionManager manager, PoolingDataSource one, PoolingDataSource two) {
        var draw = ThreadLocalRandom.current();
        while (true) {
            try {
                manager.begin();
                int amount = draw.nextInt(1, 100);
                try (var from = one.getConnection(); var to = two.getConnection()) {
                    add(from, draw.nextInt(10), -amount);
                    add(to, draw.nextInt(10), amount);
                    manager.commit();
                } catch (SQLException refused) {
                    manager.rollback();
                }
                Thread.sleep(2);
            } catch (Exception refused) {
                System.err.println(refused);
            }
        }
    }
}
