package nigbaru;

import java.io.File;
import java.io.IOException;
import java.nio.charset.StandardCharsets;
import java.nio.file.Files;
import java.nio.file.Path;
import java.nio.file.StandardCopyOption;
import java.sql.Connection;
import java.sql.DriverManager;
import java.sql.SQLException;
import java.time.Duration;
import java.util.ArrayList;
import java.util.Arrays;
import java.util.Comparator;
import java.util.HexFormat;
import java.util.List;
import java.util.concurrent.ThreadLocalRandom;
import java.util.concurrent.TimeUnit;
import java.util.function.BooleanSupplier;
import java.util.function.Predicate;
import java.util.stream.Collectors;
import java.util.stream.IntStream;
import java.util.stream.Stream;
import javax.transaction.xa.Xid;
import org.junit.jupiter.api.Assertions;
import org.junit.jupiter.api.extension.AfterAllCallback;
import org.junit.jupiter.api.extension.AfterEachCallback;
import org.junit.jupiter.api.extension.BeforeAllCallback;
import org.junit.jupiter.api.extension.BeforeEachCallback;
import org.junit.jupiter.api.extension.ExtensionContext;

/**
 * A nigbaru-server for the tests of a class, as an extension of JUnit 5:
 *
 * <pre>
 * {@literal @RegisterExtension}
 * static final NigbaruServer server = new NigbaruServer(2);  // two stores
 * </pre>
 *
 * <p>Each test begins with empty stores, since the server is started afresh for it. The ports stay the same for the
 * whole class. Tests of a class must run one after another, as JUnit has them unless told otherwise; classes may run
 * side by side. Stores are numbered from 1.
 */
public final class NigbaruServer
        implements BeforeAllCallback, BeforeEachCallback, AfterEachCallback, AfterAllCallback {
    /** How a command ended, and what it wrote on its standard output and error. */
    public record Ended(int status, String output) { }

    /** How long is waited for anything that has to come. */
    private static final Duration PATIENCE = Duration.ofSeconds(60);
    /** Seconds that a statement is held while its client is killed. */
    private static final int HOLD = 600;
    /** Ports below those that Linux gives to clients, which could otherwise take one between two tests. */
    private static final int LOWEST = 20_000, ABOVE = 32_000;
    /** The server ends with this status if a port is taken, among other causes. */
    private static final int DOES_NOT_START = 1;
    private static final int TRIES = 20;

    private final int stores;
    private final String[] options;
    private int first;  // the first store's port; 0 before it is chosen
    private Process process;
    private Path folder;
    private int commands;

    /** A server of so many stores, 1 to 64, with further options of its command line. */
    public NigbaruServer(int stores, String... options) {
        this.stores = stores;
        this.options = options;
    }

    // where the stores are

    /** The port of a store, at 127.0.0.1. It is known once the server was started, so not where fields get values. */
    public int port(int store) {
        if (store < 1 || store > stores) {
            throw new IllegalArgumentException("there is no store " + store + ": they are 1 to " + stores);
        }
        if (first == 0) {
            throw new IllegalStateException(
                    "the server isn't started, and has no ports yet: ask in a test, @BeforeEach or @BeforeAll");
        }
        return first + store - 1;
    }

    /** The address of a store for MariaDB's Connector/J. */
    public String url(int store) {
        return "jdbc:mariadb://127.0.0.1:" + port(store) + "/any?user=root";
    }

    /** A new connection to a store. */
    public Connection connect(int store) throws SQLException {
        return DriverManager.getConnection(url(store));
    }

    /** Sends a statement on a connection of its own; the first value of the reply, or null if it has none. */
    public String ask(int store, String statement) throws SQLException {
        try (var connection = connect(store); var it = connection.createStatement()) {
            if (!it.execute(statement)) {
                return null;
            }
            var rows = it.getResultSet();
            return rows.next() ? rows.getString(1) : null;
        }
    }

    // faults and commands

    /**
     * Puts these faults in the place of all earlier ones, as lines of the server's option --fault: for example
     * {@code "STORE 1 XA COMMIT 1 close-after"}. Statements are counted from here. Without a line no fault is left.
     */
    public void fault(String... lines) throws IOException, InterruptedException {
        var from = log().length();
        var next = folder.resolve("faults.next");
        Files.write(next, List.of(lines));
        Files.move(next, folder.resolve("faults"), StandardCopyOption.ATOMIC_MOVE);
        var told = await(from, line -> line.startsWith("the faults "), () -> !process.isAlive());
        if (told == null) {
            throw new IllegalStateException("the server hasn't read the faults: " + log());
        }
        if (told.startsWith("the faults stay")) {
            throw new IllegalArgumentException(told.replaceFirst("^.*: (?=line \\d)", ""));
        }
    }

    /**
     * Runs a command to its end. The ports are in its environment: PORTS has all, PORT1 that of store 1, and so on. Its
     * folder is empty when the test begins, and all commands of a test have the same, for a journal.
     */
    public Ended run(String... command) throws IOException, InterruptedException {
        var run = start(command);
        if (!run.waitFor(PATIENCE.toSeconds(), TimeUnit.SECONDS)) {
            destroy(run);
            Assertions.fail("after " + PATIENCE.toSeconds() + " s it hasn't ended: " + told(command));
        }
        return new Ended(run.exitValue(), output());
    }

    /**
     * Runs a command, and kills it with all its processes as soon as a statement reaches a store, which never gets it.
     * The statement is named as in a line of faults, for example {@code "STORE 1 XA COMMIT 1"}. No fault is left.
     */
    public void killBefore(String statement, String... command) throws Exception {
        kill(statement + " stall " + HOLD, command);
    }

    /** As {@link #killBefore}, but the statement takes effect, and only its answer is never sent. */
    public void killAfter(String statement, String... command) throws Exception {
        kill(statement + " stall-after " + HOLD, command);
    }

    /** The command that runs a class of this class path in a process of its own, for {@link #run} or a kill. */
    public static String[] java(Class<?> main, String... words) {
        var java = Path.of(System.getProperty("java.home"), "bin", "java").toString();
        var path = Arrays.stream(System.getProperty("java.class.path").split(File.pathSeparator))
                .map(it -> Path.of(it).toAbsolutePath().toString()).collect(Collectors.joining(File.pathSeparator));
        return Stream.concat(Stream.of(java, "-cp", path, main.getName()), Arrays.stream(words)).toArray(String[]::new);
    }

    // what is asserted

    /** The branches that a store has prepared and not yet finished, as XA RECOVER lists them. */
    public List<Xid> inDoubt(int store) throws SQLException {
        try (var connection = connect(store); var it = connection.createStatement();
                var rows = it.executeQuery("XA RECOVER")) {
            var found = new ArrayList<Xid>();
            while (rows.next()) {
                var data = rows.getBytes("data");
                var length = rows.getInt("gtrid_length");
                found.add(new Branch(rows.getInt("formatID"), Arrays.copyOf(data, length),
                        Arrays.copyOfRange(data, length, data.length)));
            }
            return found;
        }
    }

    /** Asserts how many branches are in doubt in each store: {@code assertInDoubt(1, 0)} is one in store 1 alone. */
    public void assertInDoubt(int... counts) throws SQLException {
        needOneForEach(counts.length);
        var found = new ArrayList<List<Xid>>();
        for (int store = 1; store <= stores; store++) {
            found.add(inDoubt(store));
        }
        Assertions.assertArrayEquals(counts, found.stream().mapToInt(List::size).toArray(),
                () -> "branches in doubt, store by store: " + found + ";");
    }

    /**
     * Ends the server, and asserts what {@code xa_script judge} says of each store's record: "LEGAL" if some order of
     * the calls explains all replies, "ILLEGAL", "UNDECIDED", or "EMPTY" if no client asked the store.
     */
    public void assertVerdicts(String... verdicts) throws IOException, InterruptedException {
        needOneForEach(verdicts.length);
        end();
        var found = new ArrayList<String>();
        for (int store = 1; store <= stores; store++) {
            found.add(program(file("record", store), "judge", "--quiet", "--text").output().strip());
        }
        var words = found.stream().map(it -> it.split("\\s", 2)[0]).toArray(String[]::new);
        Assertions.assertArrayEquals(verdicts, words, () -> "what judge says, store by store: " + found + ";");
    }

    /**
     * Ends the server, and asserts by {@code xa_script audit} that each global transaction is atomic: no branch
     * committed while another one's writes were dropped, and none is in doubt or open.
     */
    public void assertAtomic() throws IOException, InterruptedException {
        end();
        var words = Stream.concat(Stream.of("audit", "--text"),
                IntStream.rangeClosed(1, stores).mapToObj(store -> file("history", store).toString()));
        var audit = program(Path.of("/dev/null"), words.toArray(String[]::new));
        Assertions.assertEquals(0, audit.status(), () -> "what audit says of the histories:\n" + audit.output());
    }

    // what JUnit calls

    @Override
    public void beforeAll(ExtensionContext context) throws Exception {
        renew();
    }

    @Override
    public void beforeEach(ExtensionContext context) throws Exception {
        renew();
    }

    /** Ends the server. If the test failed, its files are kept, and it is said where. */
    @Override
    public void afterEach(ExtensionContext context) throws Exception {
        try {
            end();
        } finally {
            if (context.getExecutionException().isPresent() && folder != null) {
                System.err.println("nigbaru: the server's log, the records and histories, and what commands wrote in "
                        + context.getDisplayName() + ", are in " + folder);
                folder = null;
            }
        }
    }

    @Override
    public void afterAll(ExtensionContext context) throws Exception {
        end();
        remove();
    }

    // the server's process

    /** Starts a server with empty stores, in the place of the one that there was. */
    private void renew() throws IOException, InterruptedException {
        end();
        for (int tries = 1; ; tries++) {
            remove();
            folder = Files.createTempDirectory("nigbaru");
            int chosen = first != 0 ? first : ThreadLocalRandom.current().nextInt(LOWEST, ABOVE);
            if (begin(chosen)) {
                first = chosen;
                return;
            }
            int status = process.destroyForcibly().waitFor();
            process = null;
            if (tries == TRIES || status != DOES_NOT_START) {
                var log = log();
                remove();
                throw new IllegalStateException("the server doesn't start: " + log);
            }
            Thread.sleep(50);
        }
    }

    /** Starts the server; whether all its stores listen. */
    private boolean begin(int port) throws IOException, InterruptedException {
        Files.createFile(folder.resolve("faults"));
        Files.createDirectory(folder.resolve("work"));
        commands = 0;
        var words = new ArrayList<>(List.of(named("NIGBARU_SERVER", "nigbaru-server"), "--port", "" + port, "--stores",
                "" + stores, "--fault", "" + folder.resolve("faults"), "--record", "" + folder.resolve("record"),
                "--history", "" + folder.resolve("history")));
        words.addAll(Arrays.asList(options));
        process = launch(new ProcessBuilder(words).redirectOutput(ProcessBuilder.Redirect.DISCARD)
                .redirectError(folder.resolve("server.log").toFile()), "NIGBARU_SERVER");
        return await(0, line -> line.startsWith("store " + stores + " listens on "), () -> !process.isAlive()) != null;
    }

    /** Ends the server if it runs, by its signal, so that it writes all that it still has to. */
    private void end() throws InterruptedException, IOException {
        if (process == null) {
            return;
        }
        process.destroy();
        boolean hasEnded = process.waitFor(PATIENCE.toSeconds(), TimeUnit.SECONDS);
        process.destroyForcibly();
        int status = process.waitFor();
        process = null;
        if (!hasEnded || status != 0) {
            throw new IllegalStateException("the server didn't end as it should, status " + status + ": " + log());
        }
    }

    /** Removes the files of the last server. */
    private void remove() throws IOException {
        if (folder != null) {
            try (var found = Files.walk(folder)) {
                found.sorted(Comparator.reverseOrder()).map(Path::toFile).forEach(File::delete);
            }
            folder = null;
        }
    }

    private String log() throws IOException {
        return Files.readString(folder.resolve("server.log"), StandardCharsets.ISO_8859_1);
    }

    /** The first line of the server's log from a place on that is wanted, or null if it is over before that comes. */
    private String await(int from, Predicate<String> wanted, BooleanSupplier isOver)
            throws IOException, InterruptedException {
        var deadline = System.nanoTime() + PATIENCE.toNanos();
        while (true) {
            // (asked before the log is read, so that a last line isn't missed)
            boolean isLast = isOver.getAsBoolean() || System.nanoTime() > deadline;
            var text = log().substring(from);
            var found = text.substring(0, text.lastIndexOf('\n') + 1).lines().filter(wanted).findFirst();
            if (found.isPresent() || isLast) {
                return found.orElse(null);
            }
            Thread.sleep(10);
        }
    }

    private Path file(String name, int store) {
        return folder.resolve(stores == 1 ? name : name + "." + store);
    }

    // other processes

    private static String named(String variable, String name) {
        return System.getenv().getOrDefault(variable, name);
    }

    private static Process launch(ProcessBuilder builder, String variable) {
        try {
            return builder.start();
        } catch (IOException fault) {
            throw new IllegalStateException(builder.command().get(0) + " can't be started: install Nigbaru, or name "
                    + "the built file in the environment variable " + variable, fault);
        }
    }

    private Process start(String... command) throws IOException {
        var builder = new ProcessBuilder(command).directory(folder.resolve("work").toFile()).redirectErrorStream(true)
                .redirectInput(new File("/dev/null"))
                .redirectOutput(folder.resolve("command" + ++commands + ".out").toFile());
        var ports = IntStream.rangeClosed(1, stores).mapToObj(store -> "" + port(store)).toList();
        builder.environment().put("PORTS", String.join(" ", ports));
        for (int store = 1; store <= stores; store++) {
            builder.environment().put("PORT" + store, ports.get(store - 1));
        }
        return builder.start();
    }

    /** What the last command wrote. */
    private String output() throws IOException {
        return Files.readString(folder.resolve("command" + commands + ".out"), StandardCharsets.ISO_8859_1);
    }

    private String told(String... command) throws IOException {
        return String.join(" ", command) + "\nIt wrote: " + output();
    }

    /** Kills a process and its children. It goes first, so that it starts no more of them. */
    private static void destroy(Process process) throws InterruptedException {
        var children = process.descendants().toList();
        process.destroyForcibly().waitFor();
        children.forEach(ProcessHandle::destroyForcibly);
    }

    private void kill(String fault, String... command) throws Exception {
        fault(fault);
        var before = uses();
        var from = log().length();
        var run = start(command);
        var held = await(from, line -> line.contains(": held "), () -> !run.isAlive());
        boolean hasEnded = !run.isAlive();
        destroy(run);
        if (held == null) {
            Assertions.fail((hasEnded ? "it ended with status " + run.exitValue() : "it was still running")
                    + ", and the fault " + fault + " was not reached: " + told(command));
        }
        fault();
        // The stores see the end of each connection by themselves, and roll back what isn't prepared.
        var deadline = System.nanoTime() + PATIENCE.toNanos();
        for (var after = uses(); !isWithin(after, before); after = uses()) {
            if (System.nanoTime() > deadline) {
                throw new IllegalStateException("since the kill stores have more connections or open branches than "
                        + "before it: " + after + ", and not " + before + ". Open none while a command is killed");
            }
            Thread.sleep(10);
        }
    }

    /** For each store how many connections it has, its asker among them, and how many branches that aren't prepared. */
    private List<Integer> uses() throws SQLException {
        var found = new ArrayList<Integer>();
        for (int store = 1; store <= stores; store++) {
            int connections = 0, branches = 0;
            try (var connection = connect(store); var it = connection.createStatement();
                    var rows = it.executeQuery("SHOW NIGBARU STATUS")) {
                while (rows.next()) {
                    switch (rows.getString("name")) {
                        case "connections" -> connections += rows.getInt("value");
                        case "branch" -> branches += rows.getString("value").startsWith("PREPARED") ? 0 : 1;
                        default -> { }
                    }
                }
            }
            found.addAll(List.of(connections, branches));
        }
        return found;
    }

    private static boolean isWithin(List<Integer> some, List<Integer> most) {
        return IntStream.range(0, some.size()).allMatch(it -> some.get(it) <= most.get(it));
    }

    /** Runs the program xa_script, whose input is a file. */
    private Ended program(Path input, String... words) throws IOException, InterruptedException {
        var command = Stream.concat(Stream.of(named("NIGBARU_PROGRAM", "xa_script")), Arrays.stream(words)).toList();
        var output = folder.resolve("xa_script.out");
        var run = launch(new ProcessBuilder(command).redirectErrorStream(true).redirectInput(input.toFile())
                .redirectOutput(output.toFile()), "NIGBARU_PROGRAM");
        int status = run.waitFor();
        return new Ended(status, Files.readString(output, StandardCharsets.ISO_8859_1));
    }

    private void needOneForEach(int count) {
        if (count != stores) {
            throw new IllegalArgumentException("one for each store is wanted, " + stores + " and not " + count);
        }
    }

    /** A branch's identifier. */
    private record Branch(int getFormatId, byte[] gtrid, byte[] bqual) implements Xid {
        @Override
        public byte[] getGlobalTransactionId() {
            return gtrid;
        }

        @Override
        public byte[] getBranchQualifier() {
            return bqual;
        }

        @Override
        public String toString() {
            return readable(gtrid) + "," + readable(bqual) + "," + getFormatId;
        }

        /** As it may stand in a statement. */
        private static String readable(byte[] part) {
            var text = new String(part, StandardCharsets.ISO_8859_1);
            return text.matches("[ -&(-\\[\\]-~]*") ? "'" + text + "'"
                    : "X'" + HexFormat.of().formatHex(part) + "'";
        }
    }
}
