"""The monitor as the tools beside it use it, and how such a tool ends."""
import errno
import os
import subprocess
import sys
import threading

TOP = os.path.realpath(os.path.join(os.path.dirname(__file__), "../.."))
MOST_CALLS = 1_048_576  # of a run
BAD_INPUT, NOT_BUILT, NOT_WRITTEN, INTERRUPTED = 2, 70, 74, 130


class Stop(Exception):
    """The tool ends with these words and this status."""

    def __init__(self, words, status=BAD_INPUT):
        super().__init__(words)
        self.status = status


def run_tool(name, main):
    """Runs a tool's main function; what stops it is said in one line."""
    sys.stderr = sys.stderr or open(os.devnull, "w", encoding="utf-8")  # it was closed, and nothing of it belongs into the output
    if sys.stdout is None:  # so was this
        print(f"{name}: the output can't be written: {os.strerror(errno.EBADF)}", file=sys.stderr)
        sys.exit(NOT_WRITTEN)
    sys.stdout.reconfigure(encoding="utf-8", errors="surrogateescape")  # as a page says; and a path may have any bytes
    try:
        main()
        sys.stdout.flush()
    except Stop as stop:
        print(f"{name}: {stop}", file=sys.stderr)
        sys.exit(stop.status)
    except BrokenPipeError:  # whoever read the output has enough
        os.dup2(os.open(os.devnull, os.O_WRONLY), sys.stdout.fileno())
    except OSError as fault:
        if fault.filename is not None:  # a file that can't be opened: no fault of the output
            print(f"{name}: {fault.filename}: {fault.strerror}", file=sys.stderr)
            sys.exit(BAD_INPUT)
        os.dup2(os.open(os.devnull, os.O_WRONLY), sys.stdout.fileno())
        print(f"{name}: the output can't be written: {fault.strerror or fault}", file=sys.stderr)
        sys.exit(NOT_WRITTEN)
    except KeyboardInterrupt:
        sys.exit(INTERRUPTED)


def add_program(parser):
    parser.add_argument("--program", metavar="PATH", default=os.path.join(TOP, "monitor"), help="the monitor (default: ./monitor, which builds it where it has to)")


def parsed(parser):
    """The words of the command line: a trace may stand behind an option, and, with the script, behind `--` where its name begins with a hyphen."""
    return parser.parse_args() if "--" in sys.argv else parser.parse_intermixed_args()


def read_script(path):
    """The bytes of a script, `-` for standard input."""
    if path == "-" and sys.stdin is None:
        raise Stop(f"{named(path)} is closed")
    try:
        if path == "-":
            return sys.stdin.buffer.read()
        with open(path, "rb") as file:
            return file.read()
    except OSError as fault:
        raise Stop(f"{path}: {fault.strerror}") from None


def named(path):
    return "standard input" if path == "-" else path


def started(program, **pipes):
    try:
        return subprocess.Popen([program, "--workers", "0"], **pipes)
    except OSError as fault:
        raise Stop(f"the monitor can't be started: {program}: {fault.strerror}", NOT_BUILT) from None


def ended(status):
    """What to say of a monitor that ended too early."""
    return Stop("the monitor could not be built" if status == NOT_BUILT else f"the monitor ended with status {status}", NOT_BUILT)


def replies_to(program, script):
    """The replies to a whole script, one for each line that has one."""
    with started(program, stdin=subprocess.PIPE, stdout=subprocess.PIPE) as process:
        output, _ = process.communicate(script)
    if process.returncode:
        raise ended(process.returncode)
    return output.decode("ascii").splitlines()


class Monitor:
    """A monitor that runs on: it is handed calls, and each gives its reply. Before its journal is full a new one is begun."""

    def __init__(self, program):
        self.program, self.process, self.calls = program, None, 0

    def begin(self):
        self.end()
        self.process, self.calls = started(self.program, stdin=subprocess.PIPE, stdout=subprocess.PIPE, text=True), 0

    def end(self):
        if self.process:
            self.process.communicate()
            self.process = None

    def replies(self, calls):
        """The replies to these calls, without their first word. They are read while the calls are written."""
        if self.process is None or self.calls + len(calls) > MOST_CALLS:
            self.begin()
        self.calls += len(calls)
        writer = threading.Thread(target=self.write, args=(calls,))
        writer.start()
        replies = [self.process.stdout.readline() for _ in calls]
        writer.join()
        if not all(replies):
            raise ended(self.process.wait())
        return [reply.rstrip("\n").partition(" ")[2] for reply in replies]

    def write(self, calls):
        try:
            self.process.stdin.write("".join(f"{call}\n" for call in calls))
            self.process.stdin.flush()
        except BrokenPipeError:
            pass  # the replies tell
