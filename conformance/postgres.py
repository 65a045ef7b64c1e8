"""The tools of an installed PostgreSQL 17, and clusters made by them.

They are looked for in the folder PG17_BIN, where `pg_config` of the path has its tools, and in the usual places. Where
PG17_PREFIX is set, its words stand before each call, as `chroot FOLDER`; then PG17_ROOT is the folder that the tools see
as `/`, and PG17_BIN a path as they see it. As root, whom PostgreSQL doesn't serve, the tools run as the user postgres, or
else as nobody, unless PG17_PREFIX is set.
"""
import glob
import os
import pwd
import shlex
import shutil
import subprocess
import tempfile

USUAL = ["/usr/lib/postgresql/17/bin", "/usr/pgsql-17/bin", "/usr/lib/postgresql17/bin", "/usr/local/pgsql/bin",
         "/usr/local/pgsql-17/bin", "/opt/postgresql/17/bin", "/usr/local/bin"]
PORT = "5417"
CONF = """
listen_addresses = ''
dynamic_shared_memory_type = mmap
summarize_wal = on
max_wal_size = '4GB'
checkpoint_timeout = '1h'
autovacuum = off
fsync = off
log_min_messages = warning
"""


class Missing(Exception):
    """Why there are no tools."""


class Tools:
    """The tools of PostgreSQL 17."""

    def __init__(self):
        self.prefix = shlex.split(os.environ.get("PG17_PREFIX", ""))
        self.root = os.environ.get("PG17_ROOT", "").rstrip("/")
        if os.geteuid() == 0 and not self.prefix:
            self.prefix = ["setpriv", "--reuid=%d" % user_of(), "--regid=%d" % user_of(), "--clear-groups"]
        self.folder = next((it for it in folders() if self.is_seventeen(it)), None)
        if self.folder is None:
            raise Missing("no PostgreSQL 17 with pg_combinebackup is found, and PG17_BIN names none")

    def words(self, tool, *words, folder=None):
        """A call of a tool as words."""
        return self.prefix + [os.path.join(folder or self.folder, tool), *words]

    def is_seventeen(self, folder):
        try:
            words = self.words("pg_combinebackup", "--version", folder=folder)
            ran = subprocess.run(words, capture_output=True, text=True, check=False)
        except OSError:
            return False
        return " 17" in ran.stdout

    def call(self, tool, *words, text=""):
        """The output of a tool that has to end well."""
        ran = subprocess.run(self.words(tool, *words), input=text, text=True, capture_output=True, check=False, cwd="/")
        if ran.returncode:
            raise RuntimeError("%s: %s" % (" ".join((tool,) + words), ran.stderr[-600:]))
        return ran.stdout

    def inside(self, path):
        """A path as the tools see it."""
        return path[len(self.root):] if self.root else path

    def room(self):
        """A new folder in which the tools may make others."""
        made = tempfile.mkdtemp(dir=self.root + "/tmp" if self.root else None)
        os.chmod(made, 0o777)
        return made


def user_of():
    """Whose the tools are run."""
    known = {it.pw_name: it.pw_uid for it in pwd.getpwall()}
    return known.get("postgres", known.get("nobody", 65534))


def folders():
    """Where tools may be, one after the other."""
    if os.environ.get("PG17_BIN"):
        return [os.environ["PG17_BIN"]]
    asked = []
    for name in ("pg_config", "pg_config-17"):
        if shutil.which(name):
            asked.append(subprocess.run([name, "--bindir"], capture_output=True, text=True, check=False).stdout.strip())
    path = shutil.which("pg_combinebackup")
    asked += [os.path.dirname(path)] if path else []
    return [it for it in asked if it] + USUAL + sorted(glob.glob("/opt/*/postgresql*17*/bin"))


class Cluster:
    """A cluster of PostgreSQL's in the folder `data` of a room, with its server."""

    def __init__(self, tools, room):
        self.tools, self.room, self.data = tools, room, os.path.join(room, "data")
        tools.call("initdb", "-D", tools.inside(self.data), "-A", "trust", "-U", "postgres", "--no-locale", "-E", "UTF8",
                   "-N", "--wal-segsize=1")
        self.owner = os.stat(self.data)
        with open(os.path.join(self.data, "postgresql.conf"), "a", encoding="ascii") as conf:
            conf.write(CONF)
        self.start(self.data)

    def new_folder(self, name):
        """A folder of the room that is the server's."""
        path = os.path.join(self.room, name)
        os.makedirs(path, mode=0o700)
        if os.geteuid() == 0:
            os.chown(path, self.owner.st_uid, self.owner.st_gid)
        return path

    def start(self, data):
        """Starts the server of a data folder; there is one at a time."""
        inside = self.tools.inside
        self.tools.call("pg_ctl", "-D", inside(data), "-l", inside(self.room) + "/server.log", "-w", "-t", "300", "-o",
                        "-k %s -p %s" % (inside(self.room), PORT), "-s", "start")

    def stop(self, data):
        if os.path.exists(os.path.join(data, "postmaster.pid")):
            self.tools.call("pg_ctl", "-D", self.tools.inside(data), "-m", "fast", "-w", "-t", "300", "-s", "stop")

    def sql(self, text, database="postgres"):
        """What these statements answer."""
        return self.tools.call("psql", "-X", "-q", "-At", "-v", "ON_ERROR_STOP=1", "-h", self.tools.inside(self.room), "-p",
                               PORT, "-U", "postgres", "-d", database, text=text)

    def backup(self, folder, *words):
        """Takes a backup into a folder."""
        self.tools.call("pg_basebackup", "-h", self.tools.inside(self.room), "-p", PORT, "-U", "postgres", "-D",
                        self.tools.inside(folder), "-c", "fast", "--no-sync", *words)
