package example;

import bitronix.tm.BitronixTransactionManager;
import bitronix.tm.TransactionManagerServices;
import bitronix.tm.resource.jdbc.PoolingDataSource;
import java.nio.file.Path;
import java.sql.SQLException;

/** Bitronix moves money from alice, in one store, to bob, in another. */
public final class Transfer implements AutoCloseable {
    private final PoolingDataSource alices, bobs;
    private final BitronixTransactionManager manager;

    /** Opens the manager with its journal in a folder, and finishes what an earlier one left. */
    public Transfer(Path journal, String alicesPort, String bobsPort) {
        var settings = TransactionManagerServices.getConfiguration();
        settings.setServerId("example");
        settings.setLogPart1Filename(journal.resolve("btm1.tlog").toString());
        settings.setLogPart2Filename(journal.resolve("btm2.tlog").toString());
        alices = store("alice's", alicesPort, 1);
        bobs = store("bob's", bobsPort, 2);
        manager = TransactionManagerServices.getTransactionManager();
    }

    private static PoolingDataSource store(String name, String port, int place) {
        var source = new PoolingDataSource();
        source.setUniqueName(name);
        source.setClassName("org.mariadb.jdbc.MariaDbDataSource");
        source.getDriverProperties().setProperty("url", "jdbc:mariadb://127.0.0.1:" + port + "/any");
        source.getDriverProperties().setProperty("user", "root");
        source.setMaxPoolSize(8);
        source.setTestQuery("SELECT 1");  // a connection that was cut is replaced
        source.setTwoPcOrderingPosition(place);  // prepared in this order, and committed in the other
        source.init();
        return source;
    }

    /** Moves an amount, or throws and moves nothing. */
    public void move(int amount) throws Exception {
        manager.begin();
        try {
            add(alices, "alice", -amount);
            add(bobs, "bob", amount);
        } catch (SQLException refused) {
            manager.rollback();
            throw refused;
        }
        manager.commit();
    }

    private static void add(PoolingDataSource store, String name, int amount) throws SQLException {
        try (var connection = store.getConnection(); var get = connection.prepareStatement("GET ?");
                var put = connection.prepareStatement("PUT ?,?")) {
            get.setString(1, name);
            var row = get.executeQuery();
            row.next();
            put.setString(1, name);
            put.setString(2, "" + (row.getInt(1) + amount));
            put.execute();
        }
    }

    @Override
    public void close() {
        manager.shutdown();
        alices.close();
        bobs.close();
    }

    /** Recovers; and moves the amount, if there is one. */
    public static void main(String[] words) throws Exception {
        try (var transfer = new Transfer(Path.of("."), System.getenv("PORT1"), System.getenv("PORT2"))) {
            var found = TransactionManagerServices.getRecoverer();
            System.out.println("recovered: " + found.getCommittedCount() + " committed, "
                    + found.getRolledbackCount() + " rolled back");
            if (words.length > 0) {
                transfer.move(Integer.parseInt(words[0]));
            }
        }
    }
}
