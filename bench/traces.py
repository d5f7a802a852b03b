"""The calls that a replay makes on its two files and the console, as strace sees them."""
import collections
import os
import re
import shutil
import subprocess

CALLS = "openat,?open,close,lseek,read,write,pread64,pwrite64,readv,writev,fsync,fdatasync,ftruncate"
CALL = re.compile(r"^(?:\d+ +)?(\w+)\((.*)\) += (-?\d+)")
TEXT = re.compile(r'"((?:\\x[0-9a-f]{2})*)"')


def can_trace():
    """Whether there is a strace that may trace a program here."""
    words = ["strace", "-f", "-xx", "-e", f"trace={CALLS}", "-o", "/dev/null", "true"]
    return shutil.which("strace") is not None and subprocess.run(words, stdout=subprocess.PIPE, stderr=subprocess.PIPE).returncode == 0


class Trace:
    """What the lines of a trace say: how many system calls there were of each file, and what was done with it, in the order of
    events: a file, what was done, and its values."""

    def __init__(self):
        self.files = {1: "console"}
        self.places = {}
        self.events = []
        self.system_calls = collections.Counter()

    def take(self, line):
        found = CALL.match(line)
        if found is None or int(found[3]) < 0:
            return
        call, words, value = found[1], found[2], int(found[3])
        if call in ("openat", "open"):
            name = text_of(words).decode().rpartition("/")[2]
            self.files[value] = name if name in ("journal", "output") else None
            self.places[value] = 0
            return
        number = int(re.match(r"\d+", words)[0])
        if self.files.get(number) is not None:
            self.call(call, number, words, value)

    def call(self, call, number, words, value):
        file, place = self.files[number], self.places.get(number, 0)
        self.system_calls[file] += 1
        if call == "close":
            del self.files[number]
        elif call == "lseek":
            self.places[number] = value
            if "SEEK_END" in words:
                self.events.append((file, "len", value))
        elif call in ("read", "readv"):
            self.places[number] = place + value
            self.events.append((file, "read", place, value))
        elif call in ("write", "writev"):
            self.places[number] = place + value
            self.events.append((file, "write", place, text_of(words)[:value]))
        elif call == "pwrite64":
            self.events.append((file, "write", int(words.rpartition(",")[2]), text_of(words)[:value]))
        elif call == "ftruncate":
            self.events.append((file, "cut", int(words.rpartition(",")[2])))
        elif call in ("fsync", "fdatasync"):
            self.events.append((file, "sync"))


def text_of(words):
    """The texts among the words of a call, one behind the other."""
    return b"".join(bytes.fromhex(it.replace("\\x", "")) for it in TEXT.findall(words))


def traced(words, at):
    """What a program answers that is started in a folder under strace, and what it did."""
    path = os.path.join(at, "trace")
    before = ["strace", "-f", "-xx", "-s", "1000000", "-e", f"trace={CALLS}", "-o", path]
    answer = subprocess.run([*before, *words], stdout=subprocess.PIPE, stderr=subprocess.PIPE, cwd=at, timeout=600)
    trace = Trace()
    with open(path, encoding="ascii", errors="replace") as lines:
        for line in lines:
            trace.take(line)
    os.remove(path)
    return answer, trace
