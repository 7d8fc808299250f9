import com.mchange.v2.c3p0.ComboPooledDataSource;
import com.zaxxer.hikari.HikariDataSource;
import java.sql.Connection;
import java.sql.SQLException;
import java.util.ArrayList;
import java.util.concurrent.Executors;
import java.util.concurrent.Future;
import javax.sql.DataSource;

/**
 * HikariCP and c3p0, as they test connections by themselves: eight threads move money in local transactions, each
 * between two accounts of its own. Words: a database as port/name.
 */
public final class PooledAccounts {
    static HikariDataSource hikari(String address) {
        var source = new HikariDataSource();
        source.setJdbcUrl(address);
        source.setUsername("root");
        source.setMaximumPoolSize(8);
        return source;
    }

    static ComboPooledDataSource c3p0(String address) throws Exception {
        var source = new ComboPooledDataSource();
        source.setDriverClass("org.mariadb.jdbc.Driver");
        source.setJdbcUrl(address);
        source.setUser("root");
        source.setMaxPoolSize(8);
        source.setTestConnectionOnCheckout(true);  // it asks for a table that isn't there
        return source;
    }

    static void move(Connection connection, int from, int to) throws SQLException {
        try (var update = connection.prepareStatement("UPDATE account SET balance = balance + ? WHERE id = ?")) {
            for (int[] it : new int[][] {{-7, from}, {7, to}}) {
                update.setInt(1, it[0]);
                update.setInt(2, it[1]);
                update.executeUpdate();
            }
        }
    }

    static int work(DataSource source, int number) throws Exception {
        int committed = 0;
        for (int turn = 0; turn < 5; turn++) {
            try (var connection = source.getConnection()) {
                connection.setAutoCommit(false);
                move(connection, 2 * number, 2 * number + 1);
                if (turn % 2 == 0) {
                    connection.commit();
                    committed++;
                } else {
                    connection.rollback();
                }
            }
        }
        return committed;
    }

    static void use(String name, DataSource source) throws Exception {
        var threads = Executors.newFixedThreadPool(8);
        try (var connection = source.getConnection(); var statement = connection.createStatement()) {
            statement.execute("DROP TABLE IF EXISTS account");
            statement.execute("CREATE TABLE account (id INT PRIMARY KEY, balance INT NOT NULL)");
            for (int id = 0; id < 16; id++) {
                statement.executeUpdate("INSERT INTO account VALUES (" + id + ", 50)");
            }
            var works = new ArrayList<Future<Integer>>();
            for (int number = 0; number < 8; number++) {
                int its = number;
                works.add(threads.submit(() -> work(source, its)));
            }
            int committed = 0;
            for (var it : works) {
                committed += it.get();
            }
            threads.shutdown();
            System.out.println(name + " valid " + connection.isValid(5) + ", committed " + committed);
            try (var rows = statement.executeQuery("SELECT id, balance FROM account ORDER BY id")) {
                while (rows.next()) {
                    System.out.print(rows.getInt("id") + "=" + rows.getInt("balance") + " ");
                }
            }
            System.out.println("deleted " + statement.executeUpdate("DELETE FROM account WHERE balance < 50"));
            statement.execute("DROP TABLE account");
        }
    }

    public static void main(String[] words) throws Exception {
        String address = "jdbc:mariadb://127.0.0.1:" + words[0];
        try (var source = hikari(address)) {
            use("hikari", source);
        }
        var source = c3p0(address);
        use("c3p0", source);
        source.close();
    }
}
