"""Sites by themselves, as the tests play them: one directory for each."""
import subprocess

from tests.playing import call

TWO = ["argonne:8", "lemont:4"]


def frame(status, answer, words=""):
    """What `serve --frames` writes of a line: its status, its answer, and the words beside it."""
    return f"{status} {len(answer)} {len(words)}\n{answer}{words}"


def read_frame(stream):
    """The status, the answer and the words of the frame that comes next."""
    status, answer, words = map(int, stream.readline().split())
    return status, stream.read(answer).decode(), stream.read(words).decode()


class Sites:
    """Sites of a roster in a folder."""

    def __init__(self, tally, program, folder):
        self.tally, self.program, self.folder, self.serving = tally, program, folder, {}

    def run(self, *words, text=b"", **how):
        """A call of the program: its status, its output and its words on standard error."""
        return call([self.program, *words], text, cwd=self.folder, **how)

    def make(self, roster):
        """Makes each site of a roster."""
        for entry in roster:
            name = entry.split(":")[0]
            self.tally.same(f"init {name}", self.run("init", name, name, *roster), (0, "", ""))

    def at(self, site, words, text=b""):
        """The answer to a line, asked by a process of its own."""
        return self.run("at", site, *words, text=text)[1]

    def serve(self, site, words, text=b""):
        """The answer to a line, asked of the site's one `serve`."""
        if site not in self.serving:
            self.serving[site] = subprocess.Popen([self.program, "serve", site], stdin=subprocess.PIPE, stdout=subprocess.PIPE, cwd=self.folder)
        serve = self.serving[site]
        serve.stdin.write(" ".join(words).encode() + (b" " + text if text else b"").rstrip(b"\n") + b"\n")
        serve.stdin.flush()
        return "".join(iter(lambda: serve.stdout.readline().decode(), "\n"))

    def close(self):
        """Ends each `serve`."""
        for serve in self.serving.values():
            serve.stdin.close()
            serve.wait()
        self.serving = {}

    def seen(self, site):
        """What a site has seen of each site."""
        return self.run("check", site)[1].split(", ")[1]

    def journal(self, site):
        """The bytes of a site's journal."""
        with open(f"{self.folder}/{site}/journal", "rb") as file:
            return file.read()
