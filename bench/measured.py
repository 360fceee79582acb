"""Times and memory of runs of a program, for the benches beside it."""
import os
import sys
import tempfile
import time


def start(program, words, text, sink):
    """Starts a run with these words on this input, whose output goes to `sink`."""
    with tempfile.TemporaryFile() as source:
        source.write(text)
        source.flush()
        source.seek(0)
        files = [(os.POSIX_SPAWN_DUP2, source.fileno(), 0), (os.POSIX_SPAWN_DUP2, sink, 1)]
        return os.posix_spawn(program, [program, *words], os.environ, file_actions=files)


def run(program, words, text, wanted):
    """Microseconds and output of a run, which ends with the wanted status."""
    with tempfile.TemporaryFile() as sink:
        _, status, used = os.wait4(start(program, words, text, sink.fileno()), 0)
        if os.WEXITSTATUS(status) != wanted:
            sys.exit(f"{words}: status {os.WEXITSTATUS(status)}, and not {wanted}")
        sink.seek(0)
        return (used.ru_utime + used.ru_stime) * 1e6, sink.read()


def peak(program, words, text):
    """The peak bytes of memory of a run, read while it is held at its first write, into a full pipe."""
    drain, sink = os.pipe()
    os.set_blocking(sink, False)
    try:
        while True:
            os.write(sink, bytes(4096))
    except BlockingIOError:
        os.set_blocking(sink, True)
    child = start(program, words, text, sink)
    os.close(sink)
    calm = 0
    while calm < 5:
        time.sleep(0.02)
        with open(f"/proc/{child}/status") as lines:
            status = dict(line.rstrip("\n").split(":\t", 1) for line in lines)
        calm = calm + 1 if status["State"].startswith("S") else 0
    while os.read(drain, 65536):
        pass
    os.close(drain)
    os.wait4(child, 0)
    return int(status["VmHWM"].split()[0]) * 1024
