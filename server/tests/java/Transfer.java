import bitronix.tm.BitronixTransactionManager;
import bitronix.tm.Configuration;
import bitronix.tm.TransactionManagerServices;
import bitronix.tm.resource.jdbc.PoolingDataSource;
import java.sql.Connection;
import java.sql.Statement;

/**
 * Recovers what an earlier process left over, prints how many branches it committed and rolled back, and then writes a
 * row in each of two stores, in one transaction of Bitronix.
 *
 * <p>Words: the folder of the journal, the two ports, what to do (commit, rollback, or recover alone), and the row's
 * value.
 */
public final class Transfer {
    static PoolingDataSource store(String name, String port, int place) {
        PoolingDataSource source = new PoolingDataSource();
        source.setUniqueName(name);
        source.setClassName("org.mariadb.jdbc.MariaDbDataSource");
        source.getDriverProperties().setProperty("url", "jdbc:mariadb://127.0.0.1:" + port + "/db");
        source.getDriverProperties().setProperty("user", "root");
        source.setMinPoolSize(1);
        source.setMaxPoolSize(4);
        source.setTwoPcOrderingPosition(place);
        source.init();
        return source;
    }

    static void put(PoolingDataSource source, String key, String value) throws Exception {
        try (Connection connection = source.getConnection(); Statement statement = connection.createStatement()) {
            statement.execute("PUT '" + key + "','" + value + "'");
        }
    }

    public static void main(String[] words) throws Exception {
        Configuration settings = TransactionManagerServices.getConfiguration();
        settings.setServerId("test");
        settings.setLogPart1Filename(words[0] + "/btm1.tlog");
        settings.setLogPart2Filename(words[0] + "/btm2.tlog");
        settings.setGracefulShutdownInterval(2);
        settings.setBackgroundRecoveryIntervalSeconds(1);
        PoolingDataSource one = store("one", words[1], 1);
        PoolingDataSource two = store("two", words[2], 2);
        BitronixTransactionManager manager = TransactionManagerServices.getTransactionManager();
        var recoverer = TransactionManagerServices.getRecoverer();
        System.out.println("FOUND " + recoverer.getCommittedCount() + " " + recoverer.getRolledbackCount());
        try {
            if (!words[3].equals("recover")) {
                work(manager, one, two, words[3].equals("commit"), words[4]);
            }
        } catch (Exception refused) {
            System.out.println("REFUSED " + refused.getClass().getSimpleName());
        }
        recoverer.run();
        manager.shutdown();
        one.close();
        two.close();
    }

    static void work(BitronixTransactionManager manager, PoolingDataSource one, PoolingDataSource two,
            boolean commits, String value) throws Exception {
        manager.begin();
        try {
            put(one, "k", value);
            put(two, "k", value);
        } catch (Exception refused) {
            manager.rollback();
            throw refused;
        }
        System.out.println("WORKED");
        if (commits) {
            manager.commit();
            System.out.println("COMMITTED");
        } else {
            manager.rollback();
            System.out.println("ROLLED BACK");
        }
    }
}
