"""TLS: clients that ask for it have it, those that don't go on without, and what isn't TLS ends its own connection
alone."""
import random
import ssl
import struct
import subprocess
import tempfile
import unittest
from pathlib import Path

import pymysql
from support import LONG, LONGEST, PATIENCE, SERVER, Case, wait_for
from test_lending import memory
from wire import CAN, Client

HERE = Path(__file__).resolve().parent
REQUEST = struct.pack("<IIB23x", CAN | 0x800, 1 << 24, 45)


def certificate(folder, kind="rsa"):
    """A certificate for 127.0.0.1, signed by itself, and its key."""
    cert, key = folder / f"{kind}.pem", folder / f"{kind}.key"
    form = ["-newkey", "rsa:2048"] if kind == "rsa" else ["-newkey", "ec", "-pkeyopt", "ec_paramgen_curve:prime256v1"]
    subprocess.run(["openssl", "req", "-x509", *form, "-nodes", "-days", "2", "-subj", "/CN=nigbaru", "-addext",
                    "subjectAltName=IP:127.0.0.1", "-addext", "basicConstraints=critical,CA:false", "-keyout", key,
                    "-out", cert], check=True, stderr=subprocess.DEVNULL)
    return cert, key


class Tls(Case):
    def setUp(self):
        super().setUp()
        self.folder = Path(self.ends.enter_context(tempfile.TemporaryDirectory()))
        self.cert, key = certificate(self.folder)
        self.server = self.serve("--tls-cert", self.cert, "--tls-key", key)

    def asked(self, *words, text="SHOW STATUS LIKE 'Ssl_version'; SELECT @@have_ssl"):
        ran = subprocess.run(["mariadb", "--no-defaults", "--host=127.0.0.1", f"--port={self.server.port}",
                              "--user=root", "--skip-column-names", *words, "-e", text], stdout=subprocess.PIPE,
                             stderr=subprocess.STDOUT, encoding="utf-8", errors="surrogateescape", timeout=PATIENCE)
        return ran.returncode, ran.stdout

    def test_the_command_line(self):
        """A whole cycle, with the certificate verified, by either version; without --ssl the connection is in the
        clear."""
        for version in ("TLSv1.2", "TLSv1.3"):
            self.assertEqual(self.asked("--ssl", f"--ssl-ca={self.cert}", "--ssl-verify-server-cert",
                                        f"--tls-version={version}"), (0, f"Ssl_version\t{version}\nYES\n"))
        cycle = "XA START 'a'; PUT 'k',X'000a27ff5c'; XA END 'a'; XA PREPARE 'a'; XA RECOVER; XA COMMIT 'a'; GET 'k'"
        self.assertEqual(self.asked("--ssl", text=cycle), (0, "1\t1\t0\ta\n\\0\\n'\udcff\\\\\n"))
        self.assertEqual(self.asked("--skip-ssl"), (0, "Ssl_version\t\nYES\n"))
        self.assertEqual(self.server.verdicts(), ["LEGAL"])

    def connect(self, **words):
        return pymysql.connect(host="127.0.0.1", port=self.server.port, user="root", autocommit=True, **words)

    def test_pymysql(self):
        with self.connect(
                ssl={"ca": str(self.cert), "check_hostname": True}) as connection, connection.cursor() as cursor:
            for text in ("XA START 'a'", "PUT 'k',X'000a27ff5c'", "XA END 'a'", "XA PREPARE 'a'"):
                cursor.execute(text)
            cursor.execute("XA RECOVER")
            self.assertEqual(cursor.fetchall(), ((1, 1, 0, b"a"),))
            cursor.execute("XA COMMIT 'a'")
            cursor.execute("GET 'k'")
            self.assertEqual(cursor.fetchone(), (b"\0\n'\xff\\",))
            cursor.execute("SHOW STATUS LIKE 'ssl_cipher'")
            self.assertRegex(cursor.fetchone()[1], "AES|CHACHA")
            # (an answer that is longer than a record, and a packet that comes in many)
            for number in range(300):
                cursor.execute(f"XA START '{number:060}'")
                cursor.execute(f"XA END '{number:060}'")
                cursor.execute(f"XA PREPARE '{number:060}'")
            cursor.execute("XA RECOVER")
            self.assertEqual(len(cursor.fetchall()), 300)
            cursor.execute("PUT 'k','v'" + " " * 60_000)
        self.assertEqual(self.server.verdicts(), ["LEGAL"])

    def test_a_certificate_that_isnt_the_servers(self):
        other, _ = certificate(self.folder, "ec")
        with self.assertRaises(pymysql.err.OperationalError):
            self.connect(ssl={"ca": str(other)})
        with self.connect(ssl={"ca": str(self.cert)}) as connection:
            connection.ping()

    def test_a_key_of_a_curve(self):
        cert, key = certificate(self.folder, "ec")
        server = self.serve("--tls-cert", cert, "--tls-key", key)
        with pymysql.connect(host="127.0.0.1", port=server.port, user="root", ssl={"ca": str(cert)}) as connection:
            connection.ping()

    def test_passwords(self):
        secret = self.folder / "secret"
        secret.write_text("right\n")
        for auth in ("mysql_native_password", "caching_sha2_password"):
            server = self.serve("--tls-cert", self.cert, "--tls-key", self.folder / "rsa.key", "--user", "judy",
                                "--password-file", secret, "--auth", auth)
            for password, is_right in (("right", True), ("wrong", False)):
                words = {"host": "127.0.0.1", "port": server.port, "user": "judy", "password": password,
                         "ssl": {"ca": str(self.cert)}}
                if is_right:
                    pymysql.connect(**words).close()
                else:
                    with self.assertRaisesRegex(pymysql.err.OperationalError, "1045"):
                        pymysql.connect(**words)

    @unittest.skipUnless(LONG, "server/test has it with --long")
    def test_a_thousand_that_idle(self):
        server = self.serve("--tls-cert", self.cert, "--tls-key", self.folder / "rsa.key", "--max-connections", "1100",
                            record=False)
        before = memory(server)
        context = ssl.create_default_context(cafile=str(self.cert))
        idle = [pymysql.connect(host="127.0.0.1", port=server.port, user="root", ssl=context) for _ in range(1000)]
        took = memory(server) - before
        print(f"\n1,000 idle connections over TLS: {took} kB")
        self.assertLess(took, 100_000)
        for each in idle:
            each.close()

    def test_connector_j(self):
        """With the certificate verified; its XAResource goes through a cycle."""
        jar = "/usr/share/java/mariadb-java-client.jar"
        ran = subprocess.run(["java", "-Xshare:auto", "-XX:TieredStopAtLevel=1", "-cp", jar,
                              HERE / "clients" / "Secure.java", str(self.server.port), self.cert],
                             stdout=subprocess.PIPE, stderr=subprocess.STDOUT, text=True, timeout=LONGEST)
        self.assertRegex(ran.stdout, r"\ATLSv1\.[23]\nlisted 1\nvalue 000a27ff5c\n\Z")
        self.assertEqual(self.server.verdicts(), ["LEGAL"])

    def test_a_login_in_the_clear_behind_the_request(self):
        """What is sent in the clear behind the request is no login, even in the same piece, so nobody between can put
        in a word."""
        with Client(self.server.port, log_in=False) as client:
            client.greeted()
            login = client.login_packet(b"root", b"", b"mysql_native_password")
            client.socket.sendall(len(REQUEST).to_bytes(3, "little") + b"\1" + REQUEST
                                  + len(login).to_bytes(3, "little") + b"\2" + login)
            self.assertTrue(client.is_closed())
        wait_for(lambda: self.server.logged("no TLS: "), "it is told why")

    def test_noise_in_the_place_of_tls(self):
        draw = random.Random(7)
        good = self.connect(ssl={"ca": str(self.cert)})
        for number in range(200):
            with Client(self.server.port, log_in=False) as client:
                client.greeted()
                client.send(REQUEST, 1)
                client.socket.sendall(bytes([22, 3, 1])[:number % 4] + draw.randbytes(draw.randrange(400)))
            good.ping()
        good.close()
        wait_for(lambda: self.connect(ssl={"ca": str(self.cert)}).ping() is None, "it lives")

    def test_a_handshake_that_stops(self):
        server = self.serve("--tls-cert", self.cert, "--tls-key", self.folder / "rsa.key", "--patience", "3")
        with Client(server.port, log_in=False) as client:
            client.greeted()
            client.send(REQUEST, 1)
            wait_for(lambda: server.logged("silent for 3 seconds"), "it is closed")
            self.assertTrue(client.is_closed())

    def test_files(self):
        for words, said in ((["--tls-cert", self.cert], "go together"),
                            (["--tls-cert", "/none", "--tls-key", self.folder / "rsa.key"], "/none"),
                            (["--tls-cert", self.folder / "rsa.key", "--tls-key", self.folder / "rsa.key"],
                             "no certificate"), (["--tls-cert", self.cert, "--tls-key", self.cert], "no private key")):
            ran = subprocess.run([SERVER, *words], stderr=subprocess.PIPE, text=True, timeout=PATIENCE)
            self.assertEqual(ran.returncode, 2, ran.stderr)
            self.assertIn(said, ran.stderr)
