"""PostgreSQL, which docd is compared with: a server in a folder that is removed with it, and what a REFRESH of a view takes."""
import os
import pwd
import shutil
import subprocess
import sys
import tempfile
from collections import namedtuple

from measuring import least, processor_time
from view_cases import COLUMNS, as_copied, rows_of

TOOLS = ("initdb", "pg_ctl", "psql")
TYPES = {"name": "text", "items": "integer[]"}
SETTINGS = "-c fsync=off -c max_parallel_workers_per_gather=0 -c max_parallel_maintenance_workers=0 -c autovacuum=off"
END = "--end--"
INSTALL = "apt-get install postgresql, and put /usr/lib/postgresql/*/bin on the PATH"


# The process of the server that carries out what the session asks.
Backend = namedtuple("Backend", "pid")


class Postgres:
    """A server and a session with it. If there is none, `told` says why; otherwise it is None."""

    def __init__(self):
        missing = [one for one in TOOLS if not shutil.which(one)]
        self.told = "No REFRESH (%s not found): %s." % (", ".join(missing), INSTALL) if missing else None
        self.folder = self.session = None

    def __enter__(self):
        if not self.told:
            try:
                self.start()
            except (OSError, subprocess.CalledProcessError, LookupError) as fault:
                self.told = "No REFRESH: PostgreSQL doesn't start: %s" % fault
            except BaseException:
                self.__exit__()
                raise
        return self

    def start(self):
        self.folder = tempfile.mkdtemp(prefix="bench-postgres-")
        self.data = os.path.join(self.folder, "data")
        self.user = "postgres" if os.getuid() == 0 else pwd.getpwuid(os.getuid()).pw_name
        shutil.chown(self.folder, self.user)
        self.run("initdb", "-D", self.data, "-A", "trust", "-U", "bench", "-E", "UTF8", "--locale=C")
        settings = "-k %s -h '' %s" % (self.folder, SETTINGS)
        self.run("pg_ctl", "-D", self.data, "-o", settings, "-l", os.path.join(self.folder, "log"), "-w", "start")
        words = self.words("psql", "-X", "-q", "-A", "-t", "-v", "ON_ERROR_STOP=1", "-h", self.folder, "-U", "bench", "postgres")
        self.session = subprocess.Popen(words, stdin=subprocess.PIPE, stdout=subprocess.PIPE, text=True)
        self.backend = Backend(int(self.ask("SET client_min_messages = warning; SELECT pg_backend_pid();")[0]))

    def words(self, *words):
        """The words of a command that runs as the server's user, which is never root."""
        return ["runuser", "-u", self.user, "--", *words] if os.getuid() == 0 else list(words)

    def run(self, *words):
        subprocess.run(self.words(*words), check=True, stdout=subprocess.DEVNULL, cwd=self.folder)

    def __exit__(self, *_):
        if not self.folder:
            return
        if self.session:
            self.session.communicate()
        if os.path.exists(os.path.join(self.data, "postmaster.pid")):
            self.run("pg_ctl", "-D", self.data, "-m", "immediate", "stop")
        shutil.rmtree(self.folder, ignore_errors=True)

    def ask(self, text):
        """The lines that answer a text of statements."""
        self.session.stdin.write("%s\n\\echo %s\n" % (text, END))
        self.session.stdin.flush()
        lines = []
        for line in self.session.stdout:
            if line.strip() == END:
                return lines
            lines.append(line.strip())
        sys.exit("bench: PostgreSQL has ended its session")

    def fill(self, case, count):
        """Makes the tables of a case, in place of those that exist."""
        self.ask("DROP TABLE IF EXISTS c, d CASCADE;")
        for name, documents in (("c", case.documents(count)), ("d", case.foreign(count))):
            columns = ["%s %s" % (column, TYPES.get(column, "integer")) for column in COLUMNS[name]]
            self.ask("CREATE TABLE %s (%s, PRIMARY KEY (id));" % (name, ", ".join(columns)))
            rows = "\n".join("\t".join(one) for one in rows_of(documents, name, as_copied))
            self.ask("COPY %s FROM STDIN;\n%s\n\\." % (name, rows) if rows else "")
        self.ask("CREATE INDEX ON d (code); ANALYZE;")

    def refreshed(self, case, count):
        """The least seconds that a refresh of a case's view takes."""
        return self.chain_refreshed(case, [("v", case.query[1])], count)

    def chain_refreshed(self, case, views, count):
        """The least seconds that refreshing some views, one after the other, takes. Each view is a name and a query."""
        self.fill(case, count)
        for view in views:
            self.ask("CREATE MATERIALIZED VIEW %s AS %s;" % view)
        times, refreshes = max(1, 20_000 // count), "".join("REFRESH MATERIALIZED VIEW %s;" % name for name, _ in views)
        return least(lambda: self.ask(refreshes * times), lambda: processor_time(self.backend)) / times
