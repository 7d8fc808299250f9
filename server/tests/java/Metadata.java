import java.sql.DriverManager;
import java.sql.ResultSet;
import java.sql.SQLException;

/** Asks java.sql.DatabaseMetaData of a server at a port about a table, and prints the answers. */
public class Metadata {
    static final String[] TABLE = {"TABLE"};

    interface Question {
        ResultSet ask() throws SQLException;
    }

    static void print(String name, Question question) throws SQLException {
        var rows = question.ask();
        var columns = rows.getMetaData();
        var labels = new StringBuilder(name + ":");
        for (var index = 1; index <= columns.getColumnCount(); index++) {
            labels.append(" ").append(columns.getColumnLabel(index));
        }
        System.out.println(labels);
        while (rows.next()) {
            var row = new StringBuilder("  ");
            for (var index = 1; index <= columns.getColumnCount(); index++) {
                row.append(rows.getString(index)).append(" | ");
            }
            // (each server has databases of its own)
            if (!name.equals("catalogs") || row.indexOf("any") >= 0) System.out.println(row);
        }
    }

    public static void main(String[] words) throws SQLException {
        var address = "jdbc:mariadb://127.0.0.1:" + words[0] + "/any?user=root";
        try (var connection = DriverManager.getConnection(address); var statement = connection.createStatement()) {
            statement.execute("CREATE TABLE account (id VARCHAR(20) PRIMARY KEY, balance INT NOT NULL DEFAULT 7, "
                + "d DECIMAL(8,2), b VARBINARY(9), s SMALLINT UNSIGNED, t TEXT, f BOOLEAN, g BIGINT)");
            var data = connection.getMetaData();
            print("catalogs", data::getCatalogs);
            print("schemas", data::getSchemas);
            print("types of tables", data::getTableTypes);
            print("all tables", () -> data.getTables("any", null, "%", null));
            print("tables", () -> data.getTables(null, null, "acc%", TABLE));
            // The question by which c3p0 tests a connection.
            print("no table", () -> data.getTables(null, null, "PROBABLYNOT", TABLE));
            print("columns", () -> data.getColumns("any", null, "account", "%"));
            print("columns", () -> data.getColumns(null, null, "account", null));
            print("primary keys", () -> data.getPrimaryKeys("any", null, "account"));
            print("primary keys", () -> data.getPrimaryKeys(null, null, "account"));
            print("indexes", () -> data.getIndexInfo("any", null, "account", false, false));
            print("indexes", () -> data.getIndexInfo(null, null, "account", true, true));
            print("imported keys", () -> data.getImportedKeys("any", null, "account"));
            print("exported keys", () -> data.getExportedKeys("any", null, "account"));
            print("version columns", () -> data.getVersionColumns("any", null, "account"));
            print("procedures", () -> data.getProcedures("any", null, "%"));
            print("privileges", () -> data.getTablePrivileges("any", null, "account"));
            System.out.println(connection.isValid(2) + " " + connection.getCatalog());
            statement.execute("DROP TABLE account");
        }
    }
}
