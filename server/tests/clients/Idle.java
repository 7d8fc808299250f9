import bitronix.tm.TransactionManagerServices;
import bitronix.tm.resource.jdbc.PoolingDataSource;
import com.zaxxer.hikari.HikariConfig;
import com.zaxxer.hikari.HikariDataSource;
import java.sql.DriverManager;
import javax.sql.DataSource;
import org.mariadb.jdbc.MariaDbPoolDataSource;

/**
 * Pools of one connection, which the server has closed while it idled: whether the next use of the pool succeeds.
 * Words: a folder for the journal, and the port.
 */
public final class Idle {
    public static void main(String[] words) throws Exception {
        String address = "jdbc:mariadb://127.0.0.1:" + words[1] + "/db?user=root";
        var settings = TransactionManagerServices.getConfiguration();
        settings.setLogPart1Filename(words[0] + "/1").setLogPart2Filename(words[0] + "/2").setServerId("idle");
        try (var plain = hikari(address, false); var asking = hikari(address, true);
                var own = new MariaDbPoolDataSource(address + "&maxPoolSize=1")) {
            var managed = bitronix(address, null);
            var managedAsking = bitronix(address, "SELECT 1");
            for (var pool : new DataSource[] {plain, asking, own, managed, managedAsking}) {
                put(pool);
            }
            awaitTheirEnd(address);
            said("hikari", plain);
            said("hikari with a query", asking);
            said("mariadb", own);
            said("bitronix", managed);
            said("bitronix with a query", managedAsking);
            managed.close();
            managedAsking.close();
        }
        TransactionManagerServices.getTransactionManager().shutdown();
    }

    /** Waits until the server has closed all connections but the one that asks. */
    static void awaitTheirEnd(String address) throws Exception {
        try (var connection = DriverManager.getConnection(address); var statement = connection.createStatement()) {
            for (int count = 2; count > 1; Thread.sleep(100)) {
                count = 0;
                try (var rows = statement.executeQuery("SHOW PROCESSLIST")) {
                    while (rows.next()) {
                        count++;
                    }
                }
            }
        }
    }

    static PoolingDataSource bitronix(String address, String query) {
        var source = new PoolingDataSource();
        source.setUniqueName("store" + query);
        source.setClassName("org.mariadb.jdbc.MariaDbDataSource");
        source.getDriverProperties().setProperty("url", address);
        source.setMaxPoolSize(1);
        source.setMaxIdleTime(3600);  // the pool itself closes none
        source.setTestQuery(query);
        source.init();
        return source;
    }

    static HikariDataSource hikari(String address, boolean hasQuery) {
        var settings = new HikariConfig();
        settings.setJdbcUrl(address);
        settings.setMaximumPoolSize(1);
        if (hasQuery) {
            settings.setConnectionTestQuery("SELECT 1");
        }
        return new HikariDataSource(settings);
    }

    static void said(String name, DataSource pool) {
        String said = "ok";
        try {
            put(pool);
        } catch (Exception refused) {
            said = "refused";
        }
        System.out.println(name + ": " + said);
    }

    static void put(DataSource source) throws Exception {
        boolean isManaged = source instanceof PoolingDataSource;
        var manager = isManaged ? TransactionManagerServices.getTransactionManager() : null;
        if (manager != null) {
            manager.begin();
        }
        try (var connection = source.getConnection()) {
            connection.createStatement().execute("PUT 'k','v'");
        } catch (Exception fault) {
            if (manager != null) {
                manager.rollback();
            }
            throw fault;
        }
        if (manager != null) {
            manager.commit();
        }
    }
}
