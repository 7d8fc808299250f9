package example;

import static nigbaru.NigbaruServer.java;
import static org.junit.jupiter.api.Assertions.assertEquals;
import static org.junit.jupiter.api.Assertions.assertThrows;

import bitronix.tm.internal.BitronixRollbackException;
import java.nio.file.Path;
import java.sql.SQLException;
import java.util.concurrent.Callable;
import java.util.concurrent.Executors;
import java.util.concurrent.ThreadLocalRandom;
import java.util.stream.Stream;
import nigbaru.NigbaruServer;
import org.junit.jupiter.api.BeforeEach;
import org.junit.jupiter.api.Test;
import org.junit.jupiter.api.extension.RegisterExtension;
import org.junit.jupiter.api.io.TempDir;

/** Breaks transfers of Bitronix. Alice has 100 in store 1, and bob has 0 in store 2. */
class TransferTest {
    private static final int LOCKED = 3572;

    @RegisterExtension
    static final NigbaruServer server = new NigbaruServer(2);

    @TempDir
    Path journal;

    @BeforeEach
    void fill() throws Exception {
        server.ask(1, "PUT 'alice','100'");
        server.ask(2, "PUT 'bob','0'");
    }

    /** Store 1 has voted, and store 2 hasn't: the recovery rolls back. */
    @Test
    void killedBeforeTheDecision() throws Exception {
        server.killBefore("STORE 2 XA PREPARE 1", java(Transfer.class, "10"));
        server.assertInDoubt(1, 0);
        assertRecovers("recovered: 0 committed, 1 rolled back\n");
        assertMoved(0);
        server.assertAtomic();
    }

    /** Both have voted, and the decision is in the journal: the recovery commits. */
    @Test
    void killedAfterTheDecision() throws Exception {
        server.killBefore("STORE 2 XA COMMIT 1", java(Transfer.class, "10"));
        server.assertInDoubt(1, 1);
        assertRecovers("recovered: 1 committed, 0 rolled back\n");
        assertMoved(10);
        server.assertAtomic();
    }

    /** Store 2 prepares, but its answer is lost: the transfer is refused, and leaves nothing behind. */
    @Test
    void aVoteWhoseAnswerIsCut() throws Exception {
        server.fault("STORE 2 XA PREPARE 1 close-after");
        try (var transfer = open()) {
            assertThrows(BitronixRollbackException.class, () -> transfer.move(10));
            server.assertInDoubt(0, 1);
        }
        open().close();
        assertMoved(0);
        server.assertVerdicts("LEGAL", "LEGAL");
        server.assertAtomic();
    }

    /** Four threads want the same two rows. Whoever is refused one tries again, and no transfer is lost. */
    @Test
    void aHotRow() throws Exception {
        var threads = Executors.newFixedThreadPool(4);
        try (var transfer = open()) {
            Callable<Void> five = () -> {
                for (int count = 0; count < 5; count++) {
                    moveOne(transfer);
                }
                return null;
            };
            for (var each : threads.invokeAll(Stream.generate(() -> five).limit(4).toList())) {
                each.get();
            }
        } finally {
            threads.shutdown();
        }
        assertMoved(20);
        server.assertVerdicts("LEGAL", "LEGAL");
        server.assertAtomic();
    }

    private static void moveOne(Transfer transfer) throws Exception {
        for (int pause = 1; ; pause = Math.min(2 * pause, 64)) {
            try {
                transfer.move(1);
                return;
            } catch (SQLException refused) {
                assertEquals(LOCKED, refused.getErrorCode());
                Thread.sleep(ThreadLocalRandom.current().nextInt(pause + 1));
            }
        }
    }

    private Transfer open() {
        return new Transfer(journal, "" + server.port(1), "" + server.port(2));
    }

    private static void assertRecovers(String said) throws Exception {
        assertEquals(new NigbaruServer.Ended(0, said), server.run(java(Transfer.class)));
    }

    private static void assertMoved(int amount) throws Exception {
        server.assertInDoubt(0, 0);
        assertEquals("" + (100 - amount), server.ask(1, "GET 'alice'"));
        assertEquals("" + amount, server.ask(2, "GET 'bob'"));
    }
}
