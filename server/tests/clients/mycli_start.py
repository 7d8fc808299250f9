"""mycli on a terminal: its start with its completions, `status`, and statements. Word: a database as port/name. It
prints what mycli shows, without what differs from one server to the next, such as numbers of connections."""
import os
import pty
import re
import sys
import tempfile

PROMPT = re.compile(rb"one> $")
LINES = ("status", "create table account (id int primary key, note varchar(20));",
         "insert into account values (1, 'first'), (2, null);", "update account set note = 'x' where id = 2;",
         "select * from account order by id;", "select nothing from account;", "delete from account;",
         "drop table account;", "show tables;")
port, name = sys.argv[1].split("/")
# (what a client calls its character set has no effect here, and each server counts other things)
DIFFERS = re.compile("(Connections|Connection id|Current user|Server version|(?:Server|Client|Conn.) characterset|"
                     "TCP port|Uptime):.*")
room = tempfile.TemporaryDirectory()
home = room.name
with open(f"{home}/settings", "w") as settings:
    settings.write("[main]\nenable_pager = False\ndestructive_warning = False\n")
child, terminal = pty.fork()
if child == 0:
    os.environ.update(HOME=home, XDG_CONFIG_HOME=home, TERM="dumb")
    os.execvp("mycli", ["mycli", "-h", "127.0.0.1", "-P", port, "-u", "root", "--myclirc", f"{home}/settings", name])


def until_prompt():
    said = b""
    while not PROMPT.search(said):
        said += os.read(terminal, 65536)
    return said.decode()


shown = until_prompt()
for line in LINES:
    os.write(terminal, f"{line}\r".encode())
    shown += until_prompt()
os.write(terminal, b"exit\r")
os.waitpid(child, 0)
room.cleanup()
shown = re.sub(r"\x1b\[[0-9;]*m|\r", "", shown[shown.index("one> "):])
for line in shown.split("\n"):
    line = re.sub("  +", " ", DIFFERS.sub(r"\1", re.sub(r"^[^>]*one> ", "> ", line))).strip()
    # (whether the terminal shows what is typed once or twice depends on who is faster)
    if line.removeprefix("> ") not in LINES and not line.startswith(("+--", "Time: ", "mycli ")):
        print(line)
