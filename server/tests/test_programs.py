"""Programs that own small tables: each runs unchanged on a MariaDB and here, and prints the same on both. Where it has
two databases they are two stores here."""
import os
import shutil
import subprocess
import tempfile
from pathlib import Path

from mariadb import mariadb
from support import HERE, LONGEST, PYTHON, Case
from wire import Client

PROGRAMS = HERE / "clients"
JARS = ["mariadb-java-client", "HikariCP", "c3p0", "btm", "geronimo-jta-1.2-spec", "geronimo-jms_1.1_spec", "slf4j-api",
        "slf4j-nop", "spring3-core", "spring3-beans", "spring3-context", "spring3-jdbc", "spring3-transaction",
        "commons-logging"]
# (Hibernate has JPA's classes of version 2.0, EclipseLink those of 2.1)
HIBERNATE = ["mariadb-java-client", "hibernate-core", "hibernate-entitymanager", "hibernate-commons-annotations",
             "geronimo-jpa_2.0_spec", "geronimo-jta-1.2-spec", "dom4j", "antlr", "commons-collections3", "javassist",
             "jaxb-api", "slf4j-api", "slf4j-nop"]
ECLIPSELINK = ["mariadb-java-client", "eclipselink", "eclipselink-jpa-2.1-spec", "org.eclipse.persistence.jpa.jpql",
               "geronimo-jta-1.2-spec"]


class Programs(Case):
    def setUp(self):
        super().setUp()
        self.folder = Path(self.ends.enter_context(tempfile.TemporaryDirectory()))
        server = self.serve(stores=2)
        port = self.ends.enter_context(mariadb())
        with Client(port) as client:
            self.ok(client, *(f"CREATE DATABASE {name} CHARACTER SET utf8mb4" for name in ("one", "two")))
        self.places = [f"{server.ports[0]}/one", f"{server.ports[1]}/two"], [f"{port}/one", f"{port}/two"]
        self.server = server

    def tearDown(self):
        self.assertLessEqual(set(self.server.verdicts()), {"LEGAL", "EMPTY"})

    def same(self, *words, ends="tables []", **settings):
        """Runs a program, whose last words are the databases, on both."""
        ours, theirs = [self.printed(ends, *words, *places, **settings) for places in self.places]
        self.assertEqual(ours, theirs)

    def printed(self, ends, *words, **settings):
        ran = subprocess.run([*map(str, words)], stdout=subprocess.PIPE, stderr=subprocess.PIPE, text=True,
                             timeout=LONGEST, encoding="utf-8", **settings)
        self.assertEqual(ran.returncode, 0, f"{ran.stdout}{ran.stderr}\n" + "\n".join(self.server.log))
        self.assertTrue(ran.stdout.rstrip().endswith(ends), ran.stdout)
        return ran.stdout

    def test_python(self):
        for name in ("sqlalchemy_orm", "peewee_orm", "django_orm"):
            with self.subTest(name):
                self.same(PYTHON, PROGRAMS / f"{name}.py")

    def test_mycli(self):
        self.same(PYTHON, PROGRAMS / "mycli_start.py", ends="0 rows in set\n>")

    def test_sequel(self):
        self.same("ruby", PROGRAMS / "sequel.rb", ends="false\n[]")

    def test_gorm(self):
        shutil.copy(PROGRAMS / "gorm.go", self.folder)
        env = {**os.environ, "GOPATH": "/usr/share/gocode", "GO111MODULE": "off", "GOCACHE": str(self.folder / "cache"),
               "GOFLAGS": "-p=1"}
        subprocess.run(["go", "build", "-o", "gorm", "gorm.go"], cwd=self.folder, env=env, check=True, timeout=LONGEST)
        self.same(self.folder / "gorm", ends="table false")

    def compiled(self, name, jars):
        """The words that run a program in Java."""
        path = ":".join([*(f"/usr/share/java/{jar}.jar" for jar in jars), str(PROGRAMS), str(self.folder)])
        subprocess.run(["javac", "-nowarn", "-d", self.folder, "-cp", path, PROGRAMS / f"{name}.java"], check=True)
        return ["java", "-Xshare:auto", "-XX:TieredStopAtLevel=1", "-Dfile.encoding=UTF-8", "-cp", path, name]

    def test_spring(self):
        self.same(*self.compiled("SpringBank", JARS), self.folder, ends="deleted 2 2")

    def test_java_pools(self):
        self.same(*self.compiled("PooledAccounts", JARS), ends="deleted 8")

    def test_jpa(self):
        for name, jars in (("hibernate", HIBERNATE), ("eclipselink", ECLIPSELINK)):
            with self.subTest(name):
                self.same(*self.compiled("Jpa", jars), name, ends="sum 80")
