"""A child process of the program, with its memory bounded, and spoken to through pipes."""
import os
import select
import subprocess
import time

# The shell bounds its own memory and then becomes the program, so the bound stands from the program's first instruction
# on.
BOUNDED = 'ulimit -c 0 && ulimit -v "$0" && exec "$@"'
CHUNK = 65536
MOST_SAID = 1 << 20  # bytes of the standard error that are kept


class Trouble(Exception):
    """Why a child gives no whole answer; its text is for the page."""


class Child:
    def __init__(self, program, words, memory_kib):
        self.process = subprocess.Popen(
            ["/bin/sh", "-c", BOUNDED, str(memory_kib), str(program), *words], stdin=subprocess.PIPE,
            stdout=subprocess.PIPE,
            stderr=subprocess.PIPE, bufsize=0, cwd="/", env={"LC_ALL": "C"}, start_new_session=True)
        for pipe in (self.process.stdin, self.process.stdout, self.process.stderr):
            os.set_blocking(pipe.fileno(), False)
        self._error, self._has_said_all = bytearray(), False  # the first of what it says there

    def exchange(self, text, last, seconds, most):
        """Writes a text and reads at the same time, up to where the output ends with `last`, or to its end.

        Where `last` is None the child's input is closed behind the text. Trouble: a child that answers too much or too
        slowly.
        """
        answer, left = bytearray(), memoryview(text)
        deadline = time.monotonic() + seconds
        while True:
            if not left and last is None and not self.process.stdin.closed:
                self.process.stdin.close()
            ready = self._wait(bool(left), deadline - time.monotonic())
            if not ready:
                raise Trouble(f"the program didn't answer within {seconds:g} seconds, and was ended")
            if self.process.stderr in ready:
                self._read_error()
            if self.process.stdin in ready:
                left = self._write(left)
            if self.process.stdout in ready:
                piece = self.process.stdout.read(CHUNK)
                if piece == b"":
                    return bytes(answer)
                answer += piece or b""
                if len(answer) > most:
                    raise Trouble(f"the program answered more than {most} bytes, and was ended")
                if last is not None and answer.endswith(last):
                    return bytes(answer)

    def _wait(self, writes, seconds):
        waiting = select.poll()
        ends = {self.process.stdout.fileno(): self.process.stdout}
        waiting.register(self.process.stdout, select.POLLIN)
        if not self._has_said_all:
            ends[self.process.stderr.fileno()] = self.process.stderr
            waiting.register(self.process.stderr, select.POLLIN)
        if writes:
            ends[self.process.stdin.fileno()] = self.process.stdin
            waiting.register(self.process.stdin, select.POLLOUT)
        return {ends[end] for end, _ in waiting.poll(max(0, seconds) * 1000)}

    def _write(self, left):
        try:
            return left[self.process.stdin.write(left[:CHUNK]) or 0:]
        except BrokenPipeError:
            return left[len(left):]  # the program has ended, or doesn't read its input

    def _read_error(self):
        """It may say more than is kept; what it says is read all the same, so that it isn't held up."""
        try:
            piece = self.process.stderr.read(CHUNK)
        except (BlockingIOError, ValueError):
            return
        self._has_said_all = piece == b""
        if piece:
            self._error += piece[:max(0, MOST_SAID - len(self._error))]

    def has_ended(self):
        return self.process.poll() is not None

    def how_it_ended(self):
        """The status and the standard error of a child whose output has ended."""
        try:
            status = self.process.wait(5)
        except subprocess.TimeoutExpired:
            self.process.kill()
            status = self.process.wait()
        while not self._has_said_all:
            before = len(self._error)
            self._read_error()
            if len(self._error) == before:
                break
        return {"status": status, "error": self._error.decode(errors="replace").strip()}

    def end(self):
        if self.process.poll() is None:
            self.process.kill()
        self.process.wait()
        for pipe in (self.process.stdin, self.process.stdout, self.process.stderr):
            try:
                pipe.close()
            except OSError:
                pass
