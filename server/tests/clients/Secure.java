import java.sql.Connection;
import java.sql.ResultSet;
import java.util.HexFormat;
import javax.sql.XAConnection;
import javax.transaction.xa.XAResource;
import javax.transaction.xa.Xid;
import org.mariadb.jdbc.MariaDbDataSource;

/** A cycle by Connector/J over TLS, whose certificate it verifies. Words: the port, and the certificate's file. */
public final class Secure {
    record Id(int getFormatId, byte[] getGlobalTransactionId, byte[] getBranchQualifier) implements Xid {
    }

    static String asked(Connection connection, String text) throws Exception {
        try (ResultSet rows = connection.createStatement().executeQuery(text)) {
            rows.next();
            return rows.getString(2);
        }
    }

    public static void main(String[] words) throws Exception {
        var source = new MariaDbDataSource(
                "jdbc:mariadb://127.0.0.1:" + words[0] + "/db?user=root&useSSL=true&serverSslCert=" + words[1]);
        XAConnection held = source.getXAConnection();
        Connection connection = held.getConnection();
        System.out.println(asked(connection, "SHOW STATUS LIKE 'Ssl_version'"));
        byte[] value = {0, 10, 39, -1, 92};
        Xid xid = new Id(7, "g".getBytes(), "b".getBytes());
        XAResource resource = held.getXAResource();
        resource.start(xid, XAResource.TMNOFLAGS);
        try (var put = connection.prepareStatement("PUT ?,?")) {
            put.setString(1, "k");
            put.setBytes(2, value);
            put.executeUpdate();
        }
        resource.end(xid, XAResource.TMSUCCESS);
        resource.prepare(xid);
        System.out.println("listed " + resource.recover(XAResource.TMSTARTRSCAN).length);
        resource.commit(xid, false);
        try (var get = connection.prepareStatement("GET 'k'"); ResultSet rows = get.executeQuery()) {
            rows.next();
            System.out.println("value " + HexFormat.of().formatHex(rows.getBytes(1)));
        }
        held.close();
    }
}
