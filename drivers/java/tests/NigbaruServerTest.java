package tests;

import static nigbaru.NigbaruServer.java;
import static org.junit.jupiter.api.Assertions.assertAll;
import static org.junit.jupiter.api.Assertions.assertEquals;
import static org.junit.jupiter.api.Assertions.assertFalse;
import static org.junit.jupiter.api.Assertions.assertNull;
import static org.junit.jupiter.api.Assertions.assertThrows;
import static org.junit.jupiter.api.Assertions.assertTrue;
import static org.junit.jupiter.api.Assertions.fail;
import static org.junit.platform.engine.discovery.DiscoverySelectors.selectClass;

import java.io.ByteArrayOutputStream;
import java.io.PrintStream;
import java.nio.file.Files;
import java.nio.file.Path;
import java.sql.Connection;
import java.sql.DriverManager;
import java.sql.SQLException;
import java.util.Arrays;
import java.util.regex.Pattern;
import java.util.stream.Stream;
import nigbaru.NigbaruServer;
import org.junit.jupiter.api.RepeatedTest;
import org.junit.jupiter.api.Test;
import org.junit.jupiter.api.extension.RegisterExtension;
import org.junit.platform.launcher.core.LauncherDiscoveryRequestBuilder;
import org.junit.platform.launcher.core.LauncherFactory;
import org.junit.platform.launcher.listeners.SummaryGeneratingListener;
import org.opentest4j.AssertionFailedError;

/** What the extension does, and what it says if something isn't as a test wants it. */
class NigbaruServerTest {
    @RegisterExtension
    static final NigbaruServer server = new NigbaruServer(2);

    private static int port;

    /** A client in a process of its own: it says its statements to store 1, and stays. */
    public static final class Client {
        public static void main(String[] statements) throws Exception {
            var url = "jdbc:mariadb://127.0.0.1:" + System.getenv("PORT1") + "/any?user=root";
            try (var connection = DriverManager.getConnection(url)) {
                say(connection, statements);
            }
        }
    }

    /** Fails, if it is asked to run. (Its name isn't one of those that are looked for.) */
    static final class Failing {
        @RegisterExtension
        final NigbaruServer own = new NigbaruServer(1);

        @Test
        void fails() throws Exception {
            own.ask(1, "PUT 'k','v'");
            fail("on purpose");
        }
    }

    private static void say(Connection connection, String... statements) throws SQLException {
        try (var it = connection.createStatement()) {
            for (var statement : statements) {
                it.execute(statement);
            }
        }
    }

    /** Leaves a prepared branch in a store. */
    private static void prepare(int store, String xid) throws SQLException {
        try (var connection = server.connect(store)) {
            say(connection, "XA START " + xid, "PUT 'k','v'", "XA END " + xid, "XA PREPARE " + xid);
        }
    }

    private static void assertSays(String wanted, Throwable fault) {
        assertTrue(fault.getMessage().contains(wanted), fault.getMessage());
    }

    private static void assertRefused(int number, String statement) {
        assertEquals(number, assertThrows(SQLException.class, () -> server.ask(1, statement)).getErrorCode());
    }

    @RepeatedTest(3)
    void eachTestHasEmptyStoresAtTheSamePorts() throws Exception {
        assertTrue(port == 0 || port == server.port(1));
        port = server.port(1);
        assertEquals(port + 1, server.port(2));
        assertNull(server.ask(1, "GET 'k'"));
        server.assertInDoubt(0, 0);
        prepare(1, "'left'");
        server.ask(2, "PUT 'k','v'");
        assertEquals("v", server.ask(2, "GET 'k'"));
    }

    @Test
    void faultsAreCountedFromTheCall() throws Exception {
        for (int count = 0; count < 3; count++) {
            server.ask(1, "PUT 'k','v'");
            server.fault("STORE 1 PUT 2 error 1205", "STORE 1 GET 1 error 1399");
            server.ask(1, "PUT 'k','v'");
            assertRefused(1205, "PUT 'k','v'");
            assertRefused(1399, "GET 'k'");
        }
        server.fault("STORE 2 PUT 1 error 1205");
        server.ask(1, "PUT 'k','v'");
        assertRefused(1146, "SELECT nothing FROM nothing");
        server.fault();
        server.ask(2, "PUT 'k','v'");
    }

    @Test
    void aWrongLineIsToldAndEarlierFaultsStay() throws Exception {
        server.fault("GET 1 error 1205");
        assertSays("line 2: not as in", assertThrows(IllegalArgumentException.class,
                () -> server.fault("GET 1 error 1399", "COMMIT XA 1 close-after")));
        assertSays("there is no store 3", assertThrows(IllegalArgumentException.class,
                () -> server.fault("STORE 3 GET 1 close-after")));
        assertRefused(1205, "GET 'k'");
    }

    @Test
    void aCommandHasThePortsAndAFolder() throws Exception {
        var ended = server.run("sh", "-c", "echo $PORTS; echo $PORT2 >&2; ls -a | wc -l; touch journal; exit 3");
        assertEquals(new NigbaruServer.Ended(3,
                server.port(1) + " " + server.port(2) + "\n" + server.port(2) + "\n2\n"), ended);
        assertEquals(new NigbaruServer.Ended(0, "journal\n"), server.run("ls"));
        server.assertVerdicts("EMPTY", "EMPTY");
    }

    @Test
    void aKillLeavesNoProcessAndNoOpenBranch() throws Exception {
        var client = java(Client.class, "XA START 'a'", "PUT 'k','v'", "XA END 'a'", "XA PREPARE 'a'");
        var shell = Stream.of("sh", "-c", "sleep 600 & echo $! > child; \"$@\" & wait", "sh");
        server.killBefore("STORE 1 XA PREPARE 1",
                Stream.concat(shell, Arrays.stream(client)).toArray(String[]::new));
        server.assertInDoubt(0, 0);
        server.ask(1, "PUT 'k','w'");  // nobody holds the row any more
        var child = Path.of("/proc", server.run("cat", "child").output().strip(), "stat");
        for (int tries = 0; Files.exists(child) && !Files.readString(child).contains(") Z "); tries++) {
            assertTrue(tries < 6_000, "the child runs on");
            Thread.sleep(10);
        }
        server.assertVerdicts("LEGAL", "LEGAL");
        server.assertAtomic();
    }

    @Test
    void aKillAfterAStatementIsAfterItsEffect() throws Exception {
        server.killAfter("STORE 1 XA PREPARE 1", java(Client.class, "XA START 'a'", "PUT 'k','v'", "XA END 'a'",
                "XA PREPARE 'a'"));
        server.assertInDoubt(1, 0);
        server.killAfter("XA COMMIT 1", java(Client.class, "XA COMMIT 'a'"));
        server.assertInDoubt(0, 0);
        assertEquals("v", server.ask(1, "GET 'k'"));
        assertRefused(1397, "XA COMMIT 'a'");  // and no fault is left
    }

    @Test
    void aStatementThatIsNotReachedIsAFailure() {
        assertSays("it ended with status 7, and the fault STORE 1 XA COMMIT 1 stall 600 was not reached: "
                + "sh -c echo none; exit 7\nIt wrote: none", assertThrows(AssertionFailedError.class,
                () -> server.killBefore("STORE 1 XA COMMIT 1", "sh", "-c", "echo none; exit 7")));
    }

    @Test
    void branchesInDoubtAreNamed() throws Exception {
        prepare(2, "'transfer','debit',7");
        prepare(1, "X'00ff'");
        server.assertInDoubt(1, 1);
        var failure = assertThrows(AssertionFailedError.class, () -> server.assertInDoubt(1, 0));
        assertSays("[[X'00ff','',1], ['transfer','debit',7]]", failure);
        var found = server.inDoubt(2).get(0);
        assertAll(() -> assertEquals(7, found.getFormatId()),
                () -> assertEquals("transfer", new String(found.getGlobalTransactionId())),
                () -> assertEquals("debit", new String(found.getBranchQualifier())));
        assertThrows(IllegalArgumentException.class, () -> server.assertInDoubt(1));
        assertThrows(IllegalArgumentException.class, () -> server.port(3));
        assertSays("IN DOUBT", assertThrows(AssertionFailedError.class, server::assertAtomic));
    }

    @Test
    void aStoreThatLiesIsIllegal() throws Exception {
        prepare(1, "'a'");
        server.fault("STORE 1 XA COMMIT 1 error 1397");
        assertRefused(1397, "XA COMMIT 'a'");
        server.ask(2, "GET 'k'");
        server.assertVerdicts("ILLEGAL", "LEGAL");
        assertSays("ILLEGAL line", assertThrows(AssertionFailedError.class,
                () -> server.assertVerdicts("LEGAL", "LEGAL")));
    }

    @Test
    void oneStoreOnlyCommitted() throws Exception {
        prepare(1, "'a','1'");
        prepare(2, "'a','2'");
        server.ask(1, "XA COMMIT 'a','1'");
        server.ask(2, "XA ROLLBACK 'a','2'");
        assertSays("MIXED", assertThrows(AssertionFailedError.class, server::assertAtomic));
    }

    @Test
    void noPortBeforeTheStart() {
        assertSays("has no ports yet", assertThrows(IllegalStateException.class, () -> new NigbaruServer(1).url(1)));
    }

    @Test
    void aServerThatDoesNotStartSaysWhy() {
        assertSays("--no-such", assertThrows(IllegalStateException.class,
                () -> new NigbaruServer(1, "--no-such").beforeAll(null)));
    }

    /** The files of a test that failed are kept, and those of a server that doesn't start aren't in the way. */
    @Test
    void aFailureKeepsTheFiles() throws Exception {
        var summary = new SummaryGeneratingListener();
        var said = new ByteArrayOutputStream();
        var error = System.err;
        System.setErr(new PrintStream(said, true));
        try {
            LauncherFactory.create().execute(
                    LauncherDiscoveryRequestBuilder.request().selectors(selectClass(Failing.class)).build(), summary);
        } finally {
            System.setErr(error);
        }
        assertEquals(1, summary.getSummary().getTestsFailedCount());
        assertEquals("on purpose", summary.getSummary().getFailures().get(0).getException().getMessage());
        var folder = Pattern.compile("fails\\(\\), are in (.*)").matcher(said.toString());
        assertTrue(folder.find(), said.toString());
        var record = Path.of(folder.group(1), "record");
        assertTrue(Files.readString(record).contains("PUT"));
        server.run("rm", "-r", folder.group(1));
        assertFalse(Files.exists(record));
    }
}
