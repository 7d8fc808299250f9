import bitronix.tm.TransactionManagerServices;
import bitronix.tm.resource.jdbc.PoolingDataSource;
import java.util.ArrayList;
import java.util.concurrent.Executors;
import java.util.concurrent.Future;

/**
 * Thirty threads with transactions of Bitronix over two stores, whose pools have thirty connections each; prints how
 * many were committed.
 */
public final class Transfers {
    static PoolingDataSource store(String name, String port) {
        var source = new PoolingDataSource();
        source.setUniqueName(name);
        source.setClassName("org.mariadb.jdbc.MariaDbDataSource");
        source.getDriverProperties().setProperty("url", "jdbc:mariadb://127.0.0.1:" + port + "/db");
        source.getDriverProperties().setProperty("user", "root");
        source.setMinPoolSize(30);
        source.setMaxPoolSize(30);
        source.setTestQuery("SELECT 1");
        source.init();
        return source;
    }

    static void put(PoolingDataSource source, String key, int value) throws Exception {
        try (var connection = source.getConnection(); var statement = connection.createStatement()) {
            statement.execute("PUT '" + key + "','" + value + "'");
        }
    }

    public static void main(String[] words) throws Exception {
        var settings = TransactionManagerServices.getConfiguration();
        settings.setServerId("test");
        settings.setLogPart1Filename(words[0] + "/btm1.tlog");
        settings.setLogPart2Filename(words[0] + "/btm2.tlog");
        settings.setDefaultTransactionTimeout(120);
        var one = store("one", words[1]);
        var two = store("two", words[2]);
        var manager = TransactionManagerServices.getTransactionManager();
        var threads = Executors.newFixedThreadPool(30);
        var works = new ArrayList<Future<Integer>>();
        for (int number = 0; number < 30; number++) {
            String key = "row " + number;
            works.add(threads.submit(() -> {
                for (int turn = 0; turn < 10; turn++) {
                    manager.begin();
                    put(one, key, turn);
                    put(two, key, turn);
                    manager.commit();
                }
                return 10;
            }));
        }
        int committed = 0;
        for (var it : works) {
            committed += it.get();
        }
        threads.shutdown();
        manager.shutdown();
        one.close();
        two.close();
        System.out.println("committed " + committed);
    }
}
