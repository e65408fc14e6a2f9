"""The server program: started over a folder of sockets, ended in order."""

import os
import shutil
import signal
import subprocess
import time

from guest import Broken, held

HERE = os.path.dirname(os.path.abspath(__file__))
# Where builds leave the program, tried when no word names one and none is in the path.
BINDINGS = os.path.join(HERE, "..", "bindings")
BUILT = tuple(os.path.join(BINDINGS, *place, "vfdev-server") for place in (
    ("native",), ("rust", "vfdev-server", "target", "release"), ("rust", "vfdev-server", "target", "debug")))


def find(named):
    """The server program: the one that is named, else one in the path, else a built one. None where there is none."""
    if named:
        return os.path.abspath(named) if os.access(named, os.X_OK) and os.path.isfile(named) else shutil.which(named)
    return shutil.which("vfdev-server") or next((each for each in BUILT if os.access(each, os.X_OK)), None)


class Server:
    """A server. Its log is one file for the whole run, also where it is started more than once.

    `within` is a command that starts it where it has to run, `more` its words beside those of the setting.
    """

    def __init__(self, setting, name="server", within=(), more=()):
        self.setting = setting
        self.within = list(within)
        self.more = list(more)
        self.log = os.path.join(setting.logs, f"{name}.log")
        open(self.log, "wb").close()
        self.config = os.path.join(setting.logs, f"{name}.toml")
        self.process = None

    def start(self, config=None):
        """Starts it, with this text as its configuration or without any, and waits for its sockets."""
        setting = self.setting
        command = self.within + [setting.program, "--functions", str(setting.functions), "--dir", setting.place,
                                 "--frame", str(setting.frame), *setting.words] + self.more
        if setting.offloads:
            command += ["--offloads", setting.offloads]
        if config is not None:
            self.write(config)
            command += ["--config", self.config]
        with open(self.log, "ab") as log:
            self.process = subprocess.Popen(
                held(command), stdin=subprocess.DEVNULL, stdout=log, stderr=log)
        sockets = [os.path.join(setting.place, f"vf{function}") for function in range(setting.functions)]
        end = time.monotonic() + 60
        while not all(os.path.exists(socket) for socket in sockets):
            if self.process.poll() is not None:
                raise Broken(f"the server ended at its start with status {self.process.returncode}: {self.last()}")
            if time.monotonic() > end:
                raise Broken(f"the server has made no sockets in {setting.place} within 60 s: {self.last()}")
            time.sleep(0.1)

    def write(self, config):
        with open(self.config, "w") as out:
            out.write(config)

    def reread(self, config):
        """Has it take another configuration while guests are attached."""
        self.write(config)
        self.process.send_signal(signal.SIGHUP)

    def alive(self):
        return self.process is not None and self.process.poll() is None

    def busy(self):
        """How long it has had a processor, in microseconds."""
        with open(f"/proc/{self.process.pid}/schedstat") as told:
            return int(told.read().split()[0]) / 1000

    def why_gone(self):
        """What to add to a failure: nothing while it runs."""
        if self.process is None or self.alive():
            return ""
        return f"; the server has ended with status {self.process.returncode}: {self.last()}"

    def last(self):
        with open(self.log, errors="replace") as lines:
            return " / ".join(line.strip() for line in lines.readlines()[-3:]) or "it said nothing"

    def end(self):
        """Asks it to end; gives its status, or None where it had to be killed."""
        if not self.process:
            return 0
        self.process.send_signal(signal.SIGTERM)
        try:
            return self.process.wait(30)
        except subprocess.TimeoutExpired:
            self.process.kill()
            self.process.wait()
            return None
