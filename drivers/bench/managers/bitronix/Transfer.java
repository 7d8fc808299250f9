import bitronix.tm.TransactionManagerServices;
import bitronix.tm.resource.jdbc.PoolingDataSource;
import java.util.ArrayList;
import java.util.List;

/**
 * Bitronix, as its own documents use it: recovers, and with a value writes a row into each store of $PORTS, in one
 * transaction. Status 0: it committed, or recovered.
 */
public final class Transfer {
    static PoolingDataSource store(int number, String port) {
        var source = new PoolingDataSource();
        source.setUniqueName("store " + number);
        source.setClassName("org.mariadb.jdbc.MariaDbDataSource");
        source.getDriverProperties().setProperty("url", "jdbc:mariadb://127.0.0.1:" + port + "/any");
        source.getDriverProperties().setProperty("user", "root");
        source.setMaxPoolSize(4);
        source.setTwoPcOrderingPosition(number);
        source.init();
        return source;
    }

    public static void main(String[] words) throws Exception {
        var settings = TransactionManagerServices.getConfiguration();
        settings.setServerId("bench");
        settings.setGracefulShutdownInterval(2);
        List<PoolingDataSource> stores = new ArrayList<>();
        for (var port : System.getenv("PORTS").split(" ")) {
            stores.add(store(stores.size() + 1, port));
        }
        var manager = TransactionManagerServices.getTransactionManager();  // recovers first
        var found = TransactionManagerServices.getRecoverer();
        System.out.println("recovered: " + found.getCommittedCount() + " committed, "
                + found.getRolledbackCount() + " rolled back");
        int status = 0;
        if (words.length > 0) {
            manager.begin();
            try {
                for (var store : stores) {
                    try (var connection = store.getConnection(); var statement = connection.createStatement()) {
                        statement.execute("PUT 'row','" + words[0] + "'");
                    }
                }
                manager.commit();
                System.out.println("committed");
            } catch (Exception fault) {
                System.out.println(fault);
                if (manager.getCurrentTransaction() != null) {
                    manager.rollback();
                }
                status = 1;
            }
        }
        manager.shutdown();
        stores.forEach(PoolingDataSource::close);
        System.exit(status);
    }
}
