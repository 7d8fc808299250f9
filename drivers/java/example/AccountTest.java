package example;

import static org.junit.jupiter.api.Assertions.assertEquals;

import java.sql.Connection;
import java.sql.SQLException;
import nigbaru.NigbaruServer;
import org.junit.jupiter.api.Test;
import org.junit.jupiter.api.extension.RegisterExtension;

/** A suite that owns a table, as it would run on a MariaDB: only where its database comes from is different. */
class AccountTest {
    @RegisterExtension
    static final NigbaruServer server = new NigbaruServer(1);

    static Connection open() throws SQLException {
        return server.connect(1);
    }

    @Test
    void aTransferThatIsRolledBack() throws Exception {
        try (var connection = open(); var statement = connection.createStatement()) {
            statement.execute("CREATE TABLE account (id VARCHAR(20) PRIMARY KEY, balance INT NOT NULL)");
            statement.execute("INSERT INTO account VALUES ('alice', 100), ('bob', 0)");
            connection.setAutoCommit(false);
            assertEquals(1, statement.executeUpdate("UPDATE account SET balance = balance - 10 WHERE id = 'alice'"));
            assertEquals(90, balance(connection));
            connection.rollback();
            assertEquals(100, balance(connection));
        }
    }

    static int balance(Connection connection) throws SQLException {
        try (var rows = connection.createStatement().executeQuery("SELECT balance FROM account WHERE id = 'alice'")) {
            rows.next();
            return rows.getInt("balance");
        }
    }
}
