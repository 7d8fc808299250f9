import java.sql.Connection;
import java.sql.ResultSet;
import java.sql.SQLException;
import java.sql.Statement;
import java.util.Arrays;
import javax.sql.XAConnection;
import javax.transaction.xa.XAException;
import javax.transaction.xa.XAResource;
import javax.transaction.xa.Xid;
import org.mariadb.jdbc.MariaDbDataSource;

/** Calls Connector/J's XAResource against a port, and prints what each call gave, one line each. */
public final class Codes {
    record Id(int format, byte[] gtrid, byte[] bqual) implements Xid {
        Id(int format, String gtrid, String bqual) {
            this(format, gtrid.getBytes(), bqual.getBytes());
        }

        public byte[] getGlobalTransactionId() {
            return gtrid;
        }

        public byte[] getBranchQualifier() {
            return bqual;
        }

        public int getFormatId() {
            return format;
        }
    }

    interface Call {
        void run() throws Exception;
    }

    static void say(String what, Call call) throws Exception {
        try {
            call.run();
            System.out.println(what + " OK");
        } catch (XAException refused) {
            System.out.println(what + " XA " + refused.errorCode);
        } catch (SQLException refused) {
            System.out.println(what + " SQL " + refused.getErrorCode() + " " + refused.getSQLState() + " "
                    + refused.getClass().getSimpleName());
        }
    }

    static void put(Connection connection, String key, String value) throws SQLException {
        try (Statement statement = connection.createStatement()) {
            statement.execute("PUT '" + key + "','" + value + "'");
        }
    }

    static String get(Connection connection, String key) throws SQLException {
        try (Statement statement = connection.createStatement();
                ResultSet rows = statement.executeQuery("GET '" + key + "'")) {
            return rows.next() ? rows.getString("value") : null;
        }
    }

    static void list(String what, XAResource resource) throws XAException {
        for (Xid xid : resource.recover(XAResource.TMSTARTRSCAN | XAResource.TMENDRSCAN)) {
            System.out.println(what + " lists " + xid.getFormatId() + " " + new String(xid.getGlobalTransactionId())
                    + " " + Arrays.toString(xid.getBranchQualifier()));
        }
    }

    public static void main(String[] words) throws Exception {
        MariaDbDataSource source = new MariaDbDataSource("jdbc:mariadb://127.0.0.1:" + words[0] + "/db");
        source.setUser("root");
        XAConnection one = source.getXAConnection();
        XAConnection two = source.getXAConnection();
        XAResource first = one.getXAResource();
        XAResource second = two.getXAResource();
        Connection rows = one.getConnection();
        Connection others = two.getConnection();
        Xid xid = new Id(7, "global\n", "b'1");
        Xid empty = new Id(0x7fffffff, "other", "");

        say("end of nothing", () -> first.end(xid, XAResource.TMSUCCESS));
        say("commit of nothing", () -> first.commit(xid, false));
        say("start", () -> first.start(xid, XAResource.TMNOFLAGS));
        say("start again", () -> first.start(empty, XAResource.TMNOFLAGS));
        say("start there", () -> second.start(xid, XAResource.TMNOFLAGS));
        say("join", () -> second.start(empty, XAResource.TMJOIN));
        say("put", () -> put(rows, "k", "v"));
        say("put there", () -> put(others, "k", "w"));
        say("get there", () -> System.out.println("value " + get(others, "k")));
        say("prepare too soon", () -> first.prepare(xid));
        say("end", () -> first.end(xid, XAResource.TMSUCCESS));
        say("prepare", () -> System.out.println("vote " + first.prepare(xid)));
        list("first", first);
        list("second", second);
        say("one phase of prepared", () -> second.commit(xid, true));
        say("commit there", () -> second.commit(xid, false));
        say("get", () -> System.out.println("value " + get(rows, "k")));
        say("start of an empty bqual", () -> first.start(empty, XAResource.TMNOFLAGS));
        say("put", () -> put(rows, "k", "w"));
        say("end with failure", () -> first.end(empty, XAResource.TMFAIL));
        say("one phase", () -> first.commit(empty, true));
        say("start", () -> first.start(empty, XAResource.TMNOFLAGS));
        say("end", () -> first.end(empty, XAResource.TMSUCCESS));
        say("prepare", () -> first.prepare(empty));
        list("first", first);
        say("roll back there", () -> second.rollback(empty));
        say("forget", () -> first.forget(empty));
        say("local", () -> {
            rows.setAutoCommit(false);
            put(rows, "k", "x");
            rows.rollback();
            System.out.println("value " + get(rows, "k"));
            put(rows, "k", "y");
            rows.commit();
            System.out.println("value " + get(others, "k"));
            rows.setAutoCommit(true);
        });
        say("prepared text", () -> {
            try (var statement = rows.prepareStatement("PUT ?,?")) {
                statement.setBytes(1, new byte[] {'l', '\n', 0});
                statement.setString(2, "it's\n1 \u00e4");
                statement.execute();
            }
            try (var statement = rows.prepareStatement("GET ?")) {
                statement.setBytes(1, new byte[] {'l', '\n', 0});
                ResultSet row = statement.executeQuery();
                row.next();
                System.out.println("value " + row.getString(1).replace("\n", "|"));
            }
        });
        say("what a pool asks", () -> {
            rows.setTransactionIsolation(Connection.TRANSACTION_SERIALIZABLE);
            System.out.println("level " + rows.getTransactionIsolation() + ", valid " + rows.isValid(5));
            rows.clearWarnings();
            System.out.println("warnings " + rows.getWarnings() + ", version "
                    + rows.getMetaData().getDatabaseProductVersion());
        });
        one.close();
        two.close();
    }
}
