"""The server under a trial: started afresh with its faults, watched while it runs, and ended. Another server is another
command with the same options."""
import re
import subprocess
import threading
import time
from collections.abc import Sequence
from pathlib import Path

from .points import HELD

LISTENS = re.compile(r"store (\d+) listens on .*:(\d+)")
PATIENCE = 120.0  # seconds for a server to start, and to end


class Broken(Exception):
    """The server doesn't do what a server does."""


class Server:
    """A server's process, over fresh stores. `ports` has the port of each store."""

    def __init__(self, command: Sequence[str], stores: int, port: int, folder: Path, faults: Sequence[str]) -> None:
        self.folder, self.stores = folder, stores
        self.held = 0  # statements that were held so far, for a kill or for somebody else
        self.log: list[str] = []
        self.ports: list[int] = []
        self._news = threading.Condition()
        (folder / "faults").write_text("".join(f"{line}\n" for line in faults))
        words = [*command, "--port", str(port), "--stores", str(stores), "--fault", str(folder / "faults"),
                 "--record", str(folder / "record"), "--history", str(folder / "history")]
        self.process = subprocess.Popen(words, stdin=subprocess.DEVNULL, stdout=subprocess.DEVNULL,
                                        stderr=subprocess.PIPE, text=True, errors="replace", start_new_session=True)
        self._reader = threading.Thread(target=self._read, daemon=True)
        self._reader.start()
        if not self.wait(lambda: len(self.ports) == stores, PATIENCE):
            self.end()
            raise Broken(f"the server doesn't start: {' / '.join(self.log[-5:]) or 'it says nothing'}")

    def _read(self) -> None:
        assert self.process.stderr
        with (self.folder / "server.log").open("w") as log:
            for line in self.process.stderr:
                log.write(line)
                with self._news:
                    self.log.append(line.rstrip("\n"))
                    found = LISTENS.fullmatch(self.log[-1])
                    if found and int(found[1]) == len(self.ports) + 1:
                        self.ports.append(int(found[2]))
                    self.held += bool(HELD.search(self.log[-1]))
                    self._news.notify_all()
        with self._news:
            self._news.notify_all()

    def wait(self, holds, seconds: float) -> bool:
        """Waits until something holds that the server's log tells; whether it came."""
        deadline = time.monotonic() + seconds
        with self._news:
            while not holds():
                rest = deadline - time.monotonic()
                if rest <= 0 or self.process.poll() is not None:
                    return bool(holds())
                self._news.wait(min(rest, 0.2))
        return True

    def end(self) -> None:
        """Ends the server by its signal, so that it writes what it still has to."""
        if self.process.poll() is None:
            self.process.terminate()
            try:
                self.process.wait(PATIENCE)
            except subprocess.TimeoutExpired:
                self.process.kill()
                self.process.wait()
        self._reader.join()
        assert self.process.stderr
        self.process.stderr.close()

    def _files(self, name: str) -> list[Path]:
        return [self.folder / (name if self.stores == 1 else f"{name}.{store}") for store in range(1, self.stores + 1)]

    def records(self) -> list[Path]:
        return self._files("record")

    def histories(self) -> list[Path]:
        return self._files("history")
