"""Runs of a script whose standard input fails after each number of bytes, and whose standard output does.

After a read fault the replies of all whole lines read went out and no others, after a write fault a beginning of the
replies; standard error names the end that failed, and the status is 1."""
import resource
import socket
import subprocess
import tempfile

LONGEST = 60


def run(program, way, given, **how):
    return subprocess.run([program, *way], stdin=given, stderr=subprocess.PIPE, timeout=LONGEST, restore_signals=False, **how)


def fails_to_read(program, way, front):
    """What goes out where standard input gives these bytes and then fails, as a peer's reset makes it."""
    mine, given = socket.socketpair()
    with given:
        given.send(b"never read")
        mine.sendall(front)
        mine.close()
        ran = run(program, way, given, stdout=subprocess.PIPE)
    return ran.stdout, ran.stderr, ran.returncode


def fails_to_write(program, way, script, limit):
    """What goes out where standard output takes so many bytes and then fails, as a limit on a file's size makes it."""
    _, most = resource.getrlimit(resource.RLIMIT_FSIZE)
    with tempfile.TemporaryFile() as given, tempfile.TemporaryFile() as output:
        given.write(script)
        given.seek(0)
        resource.setrlimit(resource.RLIMIT_FSIZE, (limit, most))
        try:
            ran = run(program, way, given, stdout=output)
        finally:
            resource.setrlimit(resource.RLIMIT_FSIZE, (most, most))
        output.seek(0)
        return output.read(), ran.stderr, ran.returncode


def of_one_session(script):
    """The same lines, all of the session a, so that a run in groups answers them in their order."""
    return b"".join(b"a" + line[line.index(b" "):] for line in script.splitlines(keepends=True))


def replies_alone(program, script):
    return subprocess.run([program, "--workers", "0"], input=script, stdout=subprocess.PIPE, timeout=LONGEST, check=True).stdout


def check(program, script, replies, ways):
    """Whether nothing was wrong. Each reply stands for a line; a way to run is the words that ask for it."""
    lines, texts = script.splitlines(keepends=True), replies.splitlines(keepends=True)
    wrong = runs = 0
    for way in ways:
        words = " ".join(way)
        for limit in range(len(script) + 1):
            whole = script[:limit].count(b"\n")
            wanted = b"".join(texts[:whole]), b"scm_monitor: read failed\n", 1
            wrong += tell(fails_to_read(program, way, script[:limit]), wanted, f"read {limit} bytes, {words}")
        for limit in range(len(replies)):
            wanted = replies[:limit], b"scm_monitor: write failed\n", 1
            wrong += tell(fails_to_write(program, way, script, limit), wanted, f"write {limit} bytes, {words}")
        runs += len(script) + 1 + len(replies)
    print(f"failing ends: {runs} runs of {len(lines)} lines by {', '.join(map(' '.join, ways))}: {wrong} wrong")
    return wrong == 0


def tell(ran, wanted, what):
    if ran != wanted:
        print(f"{what}: {ran}, not {wanted}")
    return ran != wanted
