import bitronix.tm.TransactionManagerServices;
import bitronix.tm.resource.jdbc.PoolingDataSource;
import java.util.List;
import java.util.function.Consumer;
import org.springframework.dao.DataIntegrityViolationException;
import org.springframework.jdbc.core.JdbcTemplate;
import org.springframework.transaction.TransactionStatus;
import org.springframework.transaction.jta.JtaTransactionManager;
import org.springframework.transaction.support.TransactionTemplate;

/**
 * Spring's JdbcTemplate and TransactionTemplate over Bitronix: a bank of two databases, each with a table
 * account(id, balance). Words: a folder for the journal, and each database as port/name.
 */
public final class SpringBank {
    static PoolingDataSource source(String name, String place) {
        var source = new PoolingDataSource();
        source.setUniqueName(name);
        source.setClassName("org.mariadb.jdbc.MariaDbDataSource");
        source.getDriverProperties().setProperty("url", "jdbc:mariadb://127.0.0.1:" + place);
        source.getDriverProperties().setProperty("user", "root");
        source.setMaxPoolSize(4);
        source.setAllowLocalTransactions(true);
        source.setTestQuery("SELECT 1");
        source.init();
        return source;
    }

    static void within(TransactionTemplate bank, Consumer<TransactionStatus> work) {
        bank.execute(status -> {
            work.accept(status);
            return null;
        });
    }

    static void move(JdbcTemplate from, JdbcTemplate to, int amount) {
        int moved = from.update("UPDATE account SET balance = balance - ? WHERE id = ? AND balance >= ?", amount,
            "alice", amount);
        to.update("UPDATE account SET balance = balance + ? WHERE id = ?", amount, "bob");
        if (moved != 1) {
            throw new IllegalStateException("alice hasn't got " + amount);
        }
    }

    static void show(String what, JdbcTemplate... banks) {
        for (var bank : banks) {
            System.out.println(what + " " + bank.queryForList("SELECT id, balance FROM account ORDER BY id") + " sum "
                + bank.queryForObject("SELECT SUM(balance) FROM account", Integer.class));
        }
    }

    public static void main(String[] words) throws Exception {
        var settings = TransactionManagerServices.getConfiguration();
        settings.setServerId("bank");
        settings.setLogPart1Filename(words[0] + "/btm1.tlog");
        settings.setLogPart2Filename(words[0] + "/btm2.tlog");
        var sources = List.of(source("one", words[1]), source("two", words[2]));
        JdbcTemplate one = new JdbcTemplate(sources.get(0)), two = new JdbcTemplate(sources.get(1));
        var manager = TransactionManagerServices.getTransactionManager();
        var bank = new TransactionTemplate(new JtaTransactionManager(manager, manager));
        for (var it : List.of(one, two)) {
            it.execute("DROP TABLE IF EXISTS account");
            it.execute("CREATE TABLE account (id VARCHAR(20) PRIMARY KEY, balance INT NOT NULL)");
            it.batchUpdate("INSERT INTO account (id, balance) VALUES (?, ?)",
                List.of(new Object[] {"alice", 100}, new Object[] {"bob", 0}));
        }
        within(bank, status -> move(one, two, 30));
        show("moved", one, two);
        try {
            within(bank, status -> move(one, two, 80));
        } catch (IllegalStateException refused) {
            show(refused.getMessage(), one, two);
        }
        within(bank, status -> {
            move(two, one, 5);
            status.setRollbackOnly();
        });
        show("rolled back", one, two);
        try {
            within(bank, status -> one.update("INSERT INTO account VALUES ('ALICE', 1)"));
        } catch (DataIntegrityViolationException refused) {
            System.out.println("refused " + refused.getRootCause().getMessage().replaceFirst("^\\(conn.*?\\) ", ""));
        }
        System.out.println("in doubt " + one.queryForList("XA RECOVER") + two.queryForList("XA RECOVER"));
        System.out.println("deleted " + one.update("DELETE FROM account") + " "
            + two.queryForObject("SELECT COUNT(*) FROM account", Integer.class));
        one.execute("DROP TABLE account");
        two.execute("DROP TABLE account");
        manager.shutdown();
        sources.forEach(PoolingDataSource::close);
    }
}
