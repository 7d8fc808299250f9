"""A transaction manager that is killed over and over amid its work over two stores: nothing is lost or done twice, and
what the stores did is LEGAL, piece by piece."""
import random
import struct
import subprocess
import tempfile
import time
from pathlib import Path

from pieces import pieces_of, verdicts
from support import LONG, LONGEST, PATIENCE, Case, wait_for
from test_clients import HERE

SIZE = 50_000
JOURNAL_BEGINS = 21  # after its header
KILLS, SECONDS = (10, 22) if LONG else (3, 1)
JARS = ":".join(f"/usr/share/java/{jar}.jar" for jar in ["mariadb-java-client", "btm", "geronimo-jta-1.2-spec",
                                                         "geronimo-jms_1.1_spec", "slf4j-api", "slf4j-nop"])


class Soak(Case):
    def setUp(self):
        super().setUp()
        self.classes = self.ends.enter_context(tempfile.TemporaryDirectory())
        self.journal = self.ends.enter_context(tempfile.TemporaryDirectory())
        subprocess.run(["javac", "-d", self.classes, "-cp", JARS, HERE / "clients" / "Soak.java"], check=True)

    def java(self, server, what):
        words = ["java", "-Xshare:auto", "-XX:TieredStopAtLevel=1", "-cp", f"{JARS}:{self.classes}", "Soak",
                 self.journal, *map(str, server.ports), what]
        return subprocess.Popen(words, stderr=subprocess.DEVNULL)

    def test_a_manager_that_is_killed(self):
        draw = random.Random(62)
        server = self.serve("--wait", "60", "--record-size", str(SIZE), stores=2)
        for _ in range(KILLS):
            wanted = [size + SIZE for size in self.sizes(server)]
            process = self.java(server, "move")
            wait_for(lambda: all(map(int.__ge__, self.sizes(server), wanted)), "it moves amounts", LONGEST)
            time.sleep(draw.uniform(SECONDS / 4, SECONDS))
            process.kill()
            process.wait(PATIENCE)
            self.wait_for_all_that_left(server)
        self.assertEqual(self.java(server, "recover").wait(LONGEST), 0)
        self.assertEqual(self.journals_end(2), JOURNAL_BEGINS)
        clients = [self.client(server, store) for store in (0, 1)]
        for client in clients:
            self.assertEqual(client.ask("XA RECOVER").rows, [])
        sums = [sum(int(self.value(client, str(account)) or b"0") for account in range(10)) for client in clients]
        self.assertLess(sums[0], 0)
        self.assertEqual(sum(sums), 0)
        for record in server.records():
            found = verdicts(record)
            self.assertGreater(len(found), 2)
            self.assertEqual(set(found), {"LEGAL"})

    def journals_end(self, part):
        """Where a part of Bitronix' journal ends, by its header: a number of 4 bytes, a time of 8, a state of 1, and
        this. It begins in part 1, and goes on in part 2 when that is full."""
        return struct.unpack_from(">q", Path(self.journal, f"btm{part}.tlog").read_bytes(), 13)[0]

    @staticmethod
    def sizes(server):
        """Bytes of each store's record: how much was done."""
        return [sum(path.stat().st_size for path in [record, *pieces_of(record)]) for record in server.records()]
