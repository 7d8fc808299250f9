"""What the server answers: counts, quoted faults, other users, and texts of clients."""
import hashlib
import random
import re
import struct
import subprocess
import tempfile
import time
from pathlib import Path

from support import PATIENCE, PROGRAM, SERVER, Case, wait_for
from test_statements import FAULTS, any_text
from wire import CAN, Client, proof_of

SHA2 = b"caching_sha2_password"


class Protocol(Case):
    def setUp(self):
        super().setUp()
        self.server = self.serve()
        self.one = self.client(self.server)

    def affected(self, text):
        self.one.send(b"\x03" + text.encode())
        packet = self.one.packet()
        self.assertEqual(packet[0], 0, packet)
        return packet[1]

    def test_update_counts(self):
        for text, count in (("PUT 'k','v'", 1), ("DEL 'k'", 1), ("DEL 'none'", 1), ("XA START 'a'", 0),
                            ("SET NAMES utf8", 0)):
            self.assertEqual(self.affected(text), count, text)

    def test_a_fault_quotes(self):
        for text, said in (("GRANT ALL ON accounts", "syntax fault at byte 0 near 'GRANT ALL ON accounts'"),
                           ("XA START", "syntax fault at byte 8, where the text ends"), ("GET 'k' now", "near 'now'")):
            self.assertIn(said, self.refused(self.one, text, 1064, "42000").text)
        for text, shown in (("x" * 60, "x" * 60), ("x" * 61, "x" * 60 + ".."), ("x" * 60_000, "x" * 60 + "..")):
            self.assertEqual(self.refused(self.one, text, 1064, "42000").text, f"syntax fault at byte 0 near '{shown}'")

    def test_settings(self):
        for text in ("SET NAMES 'latin1'", "SET NAMES utf8 COLLATE utf8_general_ci", "SET CHARACTER SET 'any'",
                     "SET SESSION TRANSACTION READ ONLY", "SET TRANSACTION ISOLATION LEVEL READ COMMITTED", "DO 1",
                     "USE db", "SET sql_mode='ANSI', @x = (1 + 2)", "START TRANSACTION READ WRITE",
                     "START TRANSACTION WITH CONSISTENT SNAPSHOT", "COMMIT"):
            self.ok(self.one, text)
        self.assertEqual(self.one.ask("SELECT CONNECTION_ID()").rows, [(b"1",)])
        self.assertEqual(self.client(self.server).ask("SELECT CONNECTION_ID() AS id").names, ["id"])
        self.assertEqual(self.one.ask("SELECT 1 FROM DUAL").rows, [(b"1",)])
        self.assertEqual(self.one.ask("SHOW VARIABLES LIKE 'lower%'").rows, [(b"lower_case_table_names", b"0")])
        self.assertEqual(self.one.ask("show /*!40003 GLOBAL */ variables like 'lower%'").kind, "table")

    def test_forms_of_settings(self):
        """Each form of SET that docs or drivers have is taken, with any name of a character set, quoted or not."""
        for name in ("utf8mb4", "'utf8mb4'", '"latin1"', "`koi8r`", "binary", "DEFAULT", "'any name'", "nobody_knows"):
            for text in ("SET NAMES {}", "set names {};", "SET NAMES {} COLLATE utf8_bin", "SET NAMES {} COLLATE 'x'",
                         "SET CHARACTER SET {}", "SET CHARSET {}", "/* c */ SET  NAMES\n{} -- x", "SET CHAR SET {}",
                         "SET NAMES {}, time_zone = '+00:00'", "SET sql_mode = '', NAMES {}, SESSION wait_timeout = 1",
                         "/*!40101 SET NAMES {} */"):
                self.ok(self.one, text.format(name))
        levels = ("READ UNCOMMITTED", "READ COMMITTED", "REPEATABLE READ", "SERIALIZABLE")
        for scope in ("", "SESSION ", "LOCAL "):
            for level in levels:
                for access in ("", ", READ WRITE"):
                    self.ok(self.one, f"SET {scope}TRANSACTION ISOLATION LEVEL {level}{access}")
            self.ok(self.one, f"SET {scope}TRANSACTION READ WRITE, ISOLATION LEVEL {levels[0]}")
        for text in ("START TRANSACTION", "START TRANSACTION READ ONLY", "START TRANSACTION READ WRITE",
                     "START TRANSACTION WITH CONSISTENT SNAPSHOT",
                     "START TRANSACTION WITH CONSISTENT SNAPSHOT, READ ONLY"):
            self.ok(self.one, text, "ROLLBACK")
        for text in ("DO 1", "DO 1, 'a'", "USE db", "SET @@session.autocommit = ON", "SET autocommit=1",
                     "SET LOCAL autocommit = TRUE", "SET @a := 1",
                     "SET sql_mode = DEFAULT, @@session.time_zone = '+00:00'"):
            self.ok(self.one, text)
        for text in ("SET", "SET NAMES", "SET CHARACTER SET", "SET TRANSACTION", "SET TRANSACTION ISOLATION LEVEL",
                     "SET TRANSACTION ISOLATION LEVEL ANY", "SET autocommit", "DO", "START TRANSACTION READ",
                     "START TRANSACTION READ ONLY,", "START TRANSACTION READ ONLY, READ WRITE", "SET NAMES utf8,"):
            self.refused(self.one, text, 1064, "42000")
        self.refused(self.one, "SET nothing_known = 1", 1193, "HY000")

    def test_what_can_be_bound(self):
        """As docs/CLIENTS.md has it: types of parameters, and their bytes, of a statement that the server prepares."""
        put, _, _ = self.one.prepare("PUT 'k',?")
        for kind, data, value in ((253, b"\x02ab", b"ab"), (252, b"\0", b""), (8, struct.pack("<q", -7), b"-7"),
                                  (3, struct.pack("<i", 7), b"7"), (1, b"\x07", b"7"), (6, b"", 1048),
                                  (5, struct.pack("<d", 7.5), 1210), (4, struct.pack("<f", 7.5), 1210),
                                  (246, b"\x037.5", 1210), (12, b"\x04\xea\x07\x0b\x1b", 1210)):
            self.one.send(b"\x17" + struct.pack("<IBI", put, 0, 1) + b"\0\x01" + bytes((kind, 0)) + data)
            answer = self.one.read(self.one.packet(), is_binary=True)
            if isinstance(value, int):
                self.assertEqual(answer.number, value, kind)
            else:
                self.assertEqual((answer.kind, self.value(self.one, "k")), ("ok", value), kind)
        start, _, _ = self.one.prepare("XA START 'a','b',?")
        for value, number in ((2 ** 31, 1366), (-1, 1366), (b"x", 1366), (7, None)):
            self.assertEqual(self.one.execute(start, value).number, number, value)
        self.ok(self.one, "XA END 'a','b',7", "XA ROLLBACK 'a','b',7")
        self.assertEqual(self.one.execute(start, b"2147483647").kind, "ok")
        for text, number, sqlstate, said in (
                ("PUT 'k',7", 1366, "HY000", "Incorrect value at byte 8, where the value is wanted"),
                ("PUT 7,'v'", 1366, "HY000", "Incorrect value at byte 4, where the key is wanted"),
                ("GET -7", 1366, "HY000", "at byte 4"), ("PUT 'k',7.5", 1366, "HY000", "at byte 8"),
                ("PUT 'k',NULL", 1048, "23000", "NULL at byte 8"), ("GET ''", 1366, "HY000", "at byte 4"),
                (f"DEL '{'k' * 65}'", 1406, "22001", "Data too long at byte 4, where the key is wanted"),
                ("XA START 'a','b','7'", 1064, "42000", "syntax fault at byte 17")):
            self.assertIn(said, self.refused(self.one, text, number, sqlstate).text)

    def test_a_transaction_that_only_reads(self):
        self.ok(self.one, "PUT 'k','v'", "START TRANSACTION READ ONLY")
        self.assertEqual(self.value(self.one, "k"), b"v")
        self.refused(self.one, "PUT 'k','w'", 1792, "25006")
        self.ok(self.one, "COMMIT", "PUT 'k','w'")
        self.assertEqual(self.server.verdicts(), ["LEGAL"])

    def test_sessions_that_only_read(self):
        """SET SESSION is for each transaction from then on, of each kind; SET for the next one alone, which is refused
        within one."""
        self.ok(self.one, "PUT 'k','v'", "SET SESSION TRANSACTION READ ONLY")
        self.assertEqual(self.one.ask("SELECT @@transaction_read_only").rows, [(b"1",)])
        self.refused(self.one, "DEL 'k'", 1792, "25006")
        self.assertEqual(self.value(self.one, "k"), b"v")
        self.ok(self.one, "XA START 'a'")
        self.refused(self.one, "PUT 'k','w'", 1792, "25006")
        self.ok(self.one, "XA END 'a'")
        self.refused(self.one, "PUT 'k','w'", 1399, "XAE07")
        self.ok(self.one, "XA ROLLBACK 'a'", "BEGIN")
        self.refused(self.one, "PUT 'k','w'", 1792, "25006")
        self.ok(self.one, "COMMIT", "SET autocommit=0")
        self.refused(self.one, "PUT 'k','w'", 1792, "25006")
        self.ok(self.one, "SET autocommit=1", "START TRANSACTION READ WRITE", "PUT 'k','w'", "COMMIT")
        self.ok(self.one, "SET TRANSACTION READ WRITE", "XA START 'b'", "PUT 'k','x'")
        self.refused(self.one, "SET TRANSACTION READ ONLY", 1568, "25001")
        self.ok(self.one, "XA END 'b'", "XA COMMIT 'b' ONE PHASE")
        self.refused(self.one, "PUT 'k','y'", 1792, "25006")
        self.ok(self.one, "SET SESSION TRANSACTION READ WRITE", "SET TRANSACTION READ ONLY")
        self.refused(self.one, "PUT 'k','y'", 1792, "25006")
        self.ok(self.one, "PUT 'k','z'", "SET tx_read_only=1")
        self.assertEqual(self.one.command(b"\x1f").kind, "ok")
        self.ok(self.one, "PUT 'k','reset'")
        self.assertEqual(self.server.verdicts(), ["LEGAL"])

    def test_prepared_texts_of_clients(self):
        for text, columns in (("SELECT 1", 1), ("SELECT @@version, CONNECTION_ID()", 2), ("BEGIN", 0),
                              ("SET NAMES utf8", 0)):
            number, parameters, count = self.one.prepare(text)
            self.assertEqual((parameters, count), (0, columns), text)
            answer = self.one.execute(number)
            self.assertEqual(answer.kind, "table" if columns else "ok", text)
        self.assertEqual(self.one.execute(self.one.prepare("SELECT 1, 'a'")[0]).rows, [(1, b"a")])

    def test_commands_without_use(self):
        self.one.send(b"\x04t\0")
        self.assertEqual(self.one.packet()[0], 0xFE)
        self.one.send(b"\x1b\0\0")
        self.assertEqual(self.one.packet()[0], 0xFE)
        self.one.send(b"\x09")
        self.assertRegex(self.one.packet(),
                         rb"\AUptime: \d+  Threads: 1  Questions: 0  Store: store 1  Connection: 1\Z")
        for command in (b"\x1c\x01\0\0\0\x01\0\0\0", b"\x07"):
            self.assertEqual(self.one.command(command).number, 1047)

    def test_the_same_reading_as_the_program(self):
        """30,000 texts, each in a connection without a branch: the faults and their places are the program's, and what
        the store is asked is answered by the program as the text itself."""
        draw = random.Random(62)
        texts = [any_text(draw) for _ in range(30_000)]
        raw = self.program_answers(texts)
        begun, expected = 0, []
        for text, said in zip(texts, raw):
            answer = self.one.ask(text)
            fault = re.fullmatch(rb"1 ERROR 1064 \(42000\): syntax fault (at byte \d+)", said)
            self.assertEqual(answer.number in FAULTS, fault is not None, (text, answer, said))
            if fault:
                how = " near " if answer.number == 1064 and len(text) > int(fault[1].split()[-1]) else ", where "
                self.assertTrue(answer.text.startswith(f"{FAULTS[answer.number]} {fault[1].decode()}{how}"),
                                (text, answer, said))
                continue
            expected.append(said)
            if said == b"1 OK" and answer.kind == "ok" and re.match(rb"(?i)xa\s*(start|begin)", text):
                begun += 1
                self.one.command(b"\x1f")
        self.assertGreater(min(begun, 100 * len(expected) // len(texts)), 20)
        called = [line.split(b" > ", 1)[1] for line in self.server.record.read_bytes().split(b"\n") if b" > " in line]
        asked = [text for text in called if text != b"DISCONNECT"]
        for text in asked:
            self.assertRegex(text, rb"\A[A-Za-z0-9', ]+\Z")
        self.assertEqual(self.program_answers(asked), expected)

    @staticmethod
    def program_answers(texts):
        """The program's answer to each text, of a session that is free, in a store to which nothing is added but what
        single rows are."""
        asked = b"".join(b"1 %s\n1 DISCONNECT\n" % text for text in texts)
        return subprocess.run([PROGRAM, "serve"], input=asked, stdout=subprocess.PIPE,
                              timeout=300).stdout.split(b"\n")[:-1:2]

    def test_change_user(self):
        self.ok(self.one, "SET autocommit=0", "XA START 'a'", "PUT 'k','v'")
        answer = self.one.command(b"\x11judy\0\0db\0\x2d\0mysql_native_password\0")
        self.assertEqual((answer.kind, answer.status), ("ok", 2))
        self.assertEqual(self.one.ask("SELECT DATABASE(), SCHEMA()").rows, [(b"db", b"db")])
        self.ok(self.one, "XA START 'a'", "PUT 'k','w'")
        self.assertEqual(self.server.verdicts(), ["LEGAL"])


class Passwords(Case):
    def setUp(self):
        super().setUp()
        self.secret = Path(self.ends.enter_context(tempfile.TemporaryDirectory())) / "secret"
        self.secret.write_text("right\n")

    @staticmethod
    def sha2_proof(password, scramble):
        once = hashlib.sha256(password).digest()
        return bytes(a ^ b for a, b in zip(once, hashlib.sha256(hashlib.sha256(once).digest() + scramble).digest()))

    def test_caching_sha2_password(self):
        """A right proof is answered by the fast path; a wrong one by 1045, without a further question."""
        for auth in (b"mysql_native_password", SHA2):
            server = self.serve("--user", "judy", "--password-file", self.secret, "--auth", auth.decode())
            for password, is_right in ((b"right", True), (b"wrong", False)):
                with Client(server.port, log_in=False) as client:
                    scramble = client.greeted()
                    client.send(client.login_packet(b"judy", self.sha2_proof(password, scramble), SHA2), 1)
                    packet = client.packet()
                    if is_right:
                        self.assertEqual(packet, b"\x01\x03")
                        self.assertEqual(client.read(client.packet()).kind, "ok")
                        self.ok(client, "PUT 'k','v'")
                    else:
                        self.assertEqual(client.read(packet).number, 1045)

    def test_clients_of_each_plugin(self):
        """The greeting names one plugin, and the client may use the other: with an account the right password alone
        lets it in, and without one any."""
        for account in ([], ["--user", "judy", "--password-file", self.secret]):
            for auth in ("mysql_native_password", "caching_sha2_password"):
                server = self.serve(*account, "--auth", auth)
                for plugin in ("mysql_native_password", "caching_sha2_password"):
                    for password in ("right", "wrong", ""):
                        words = ["mariadb", "--no-defaults", "--host=127.0.0.1", f"--port={server.port}", "--user=judy",
                                 f"--password={password}", f"--default-auth={plugin}", "-Ne", "SELECT 1"]
                        ran = subprocess.run(words, stdout=subprocess.PIPE, stderr=subprocess.STDOUT, text=True,
                                             timeout=PATIENCE)
                        self.assertEqual(ran.stdout, "ERROR 1045 (28000): Access denied\n"
                                         if account and password != "right" else "1\n", words)

    def test_another_user(self):
        server = self.serve("--user", "judy", "--password-file", self.secret)
        for password, number in ((b"right", None), (b"wrong", 1045)):
            with Client(server.port, b"judy", b"right") as client:
                proof = proof_of(password, client.scramble)
                answer = client.command(b"\x11judy\0" + bytes((len(proof),)) + proof
                                        + b"db\0\x2d\0mysql_native_password\0")
                self.assertEqual(answer.number, number)
                if number:
                    self.assertTrue(client.is_closed())
                else:
                    self.ok(client, "PUT 'k','v'")

    def test_a_client_without_plugins(self):
        """It names no plugin, and its proof is the native one."""
        server = self.serve("--user", "judy", "--password-file", self.secret)
        with Client(server.port, log_in=False) as client:
            proof = proof_of(b"right", client.greeted())
            client.send(struct.pack("<IIB23x", CAN & ~0x80000, 1 << 24, 45) + b"judy\0" + bytes((len(proof),)) + proof,
                        1)
            self.assertEqual(client.read(client.packet()).kind, "ok")


class Patience(Case):
    def test_time_limits(self):
        """A client that is idle, one that stops in a packet, and one that doesn't log in are closed when their time is
        over; the one that asks goes on."""
        server = self.serve("--idle", "20", "--patience", "8")
        asks, idle, half, silent = (self.client(server), self.client(server), self.client(server),
                                    self.ends.enter_context(Client(server.port, log_in=False)))
        self.ok(idle, "XA START 'a'", "PUT 'k','v'")
        half.socket.sendall(b"\x10\0\0\0\x03XA")
        for client, words in ((idle, "no command for 20 seconds"),
                              (half, "half a packet, and nothing more for 8 seconds"),
                              (silent, "silent for 8 seconds")):
            wait_for(lambda: self.ok(asks, "DO 1") and server.logged(words), words)
            self.assertTrue(client.is_closed())
        self.ok(asks, "PUT 'k','w'")
        self.assertEqual(server.verdicts(), ["LEGAL"])

    def test_a_client_that_drips(self):
        """One that sends a byte now and then is closed when the time for its packet is over, however little it was
        silent."""
        server = self.serve("--patience", "8")
        for log_in in (True, False):
            with Client(server.port, log_in=log_in) as client:
                if not log_in:
                    client.greeted()
                packet = (250).to_bytes(3, "little") + b"\0\x03" + b" " * 249
                with self.assertRaises(ConnectionError):
                    for byte in packet:
                        client.socket.sendall(bytes((byte,)))
                        time.sleep(0.1)
        wait_for(lambda: server.logged("half a packet, and nothing more for 8 seconds")
                 and server.logged("silent for 8 seconds"), "both are logged")
        self.ok(self.client(server), "PUT 'k','v'")

    def test_a_client_whose_machine_may_be_gone_is_asked(self):
        """The system's timer of the server's side is that of keepalive (2 in the table's fourth column)."""
        server = self.serve()
        client = self.client(server)
        ends = ["%08X:%04X" % (0x0100007F, port) for port in (server.port, client.socket.getsockname()[1])]

        def timers():
            return [line.split()[5].split(":")[0]
                    for line in Path("/proc/net/tcp").read_text().splitlines()[1:] if line.split()[1:3] == ends]

        wait_for(lambda: timers() == ["02"], "the timer is that of keepalive")

    def test_longer_packets(self):
        server = self.serve("--max-packet", "16777214")
        client = self.client(server)
        self.ok(client, "PUT 'k','v'" + " " * 10_000_000)
        self.assertEqual(client.ask("SHOW VARIABLES LIKE '" + "%a" * 1_000_000 + "'").number, 1064)
        client.send(b"\x03" + b"x" * ((1 << 24) - 2))
        client.send(b"", 1)
        self.assertEqual(client.read(client.packet()).number, 1153)


class CommandLine(Case):
    def said(self, *words):
        ran = subprocess.run([SERVER, *words], stderr=subprocess.PIPE, stdout=subprocess.PIPE, text=True,
                             timeout=PATIENCE)
        return ran.returncode, ran.stderr + ran.stdout

    def test_what_is_refused(self):
        folder = Path(self.ends.enter_context(tempfile.TemporaryDirectory()))
        (folder / "empty").write_text("\n")
        (folder / "faults").write_text("XA PREPARE 1 explode\n")
        for words, said in ((["--host", "0.0.0.0"], "needs --user"), (["--user", "u"], "go together"),
                            (["--user", "u", "--password-file", folder / "empty"], "no password"),
                            (["--fault", folder / "faults"], "line 1"), (["--fault", folder / "none"], "No such file"),
                            (["--user", "u", "--password-file", folder / "none"], "--password-file /"),
                            (["--socket="], "--socket takes a value"),
                            (["--record", "r", "--history", "./r"], "same file"),
                            (["--user", b"\xff"], "isn't UTF-8"), (["--stores", "0"], "1 to 64"),
                            (["--port", "65535", "--stores", "2"], "no ports"), (["--nothing"], "isn't an option")):
            status, text = self.said(*words)
            self.assertEqual(status, 2, text)
            self.assertIn(said, text)
        status, text = self.said("--help")
        self.assertEqual((status, "--max-connections" in text), (0, True))

    def test_a_port_that_is_taken(self):
        server = self.serve()
        status, text = self.said("--port", str(server.port))
        self.assertEqual(status, 1)
        self.assertIn("doesn't start", text)
        status, text = self.said("--port", "0", "--record", "/none/record")
        self.assertEqual(status, 1)
        self.assertIn("/none/record", text)
        status, text = self.said("--port", "0", "--status", "/none/status")
        self.assertEqual(status, 1)
        self.assertIn("it doesn't start: --status /none/status: No such file", text)

    def test_a_socket(self):
        folder = Path(self.ends.enter_context(tempfile.TemporaryDirectory()))
        server = self.serve("--socket", folder / "socket")
        for _ in range(2):
            ran = subprocess.run(["mariadb", "--no-defaults", f"--socket={folder / 'socket'}", "--user=root"],
                                 input="PUT 'k','v';\nGET 'k';\n", stdout=subprocess.PIPE, text=True, timeout=PATIENCE)
            self.assertEqual(ran.stdout, "value\nv\n")
        self.assertEqual(self.value(self.client(server), "k"), b"v")
        server.process.kill()
        server.ended()
        again = self.serve("--socket", folder / "socket")
        self.assertEqual(again.end(), 0)
        self.assertFalse((folder / "socket").exists())

    def test_a_file_at_the_path_of_a_socket(self):
        """It isn't a socket that a server left, so it stays."""
        folder = Path(self.ends.enter_context(tempfile.TemporaryDirectory()))
        (folder / "mine").write_text("mine")
        (folder / "link").symlink_to("mine")
        for name in ("mine", "link"):
            status, text = self.said("--port", "0", "--socket", folder / name)
            self.assertEqual((status, "in use" in text, (folder / name).read_text()), (1, True, "mine"), text)

    def test_a_socket_that_somebody_has_removed(self):
        folder = Path(self.ends.enter_context(tempfile.TemporaryDirectory()))
        server = self.serve("--socket", folder / "socket")
        (folder / "socket").unlink()
        self.ok(self.client(server), "PUT 'k','v'")
        server.process.terminate()
        self.assertEqual(server.ended(), 0)
