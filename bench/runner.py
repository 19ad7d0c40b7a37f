"""The built program, run over tapes in memory."""
import fcntl
import os
from pathlib import Path

TOP = Path(__file__).resolve().parent.parent
PROGRAM = os.environ.get("USBGATE", str(TOP / "crates/usbgate_cli/out/usbgate_cli"))
DONE, REFUSED = 0, 2
PAGE = 4_096


def comment(size):
    """A line of so many bytes that says nothing."""
    return b"#" * (size - 1) + b"\n" if size else b""


class Runner:
    """Runs the program over tapes in memory."""

    def __init__(self):
        self.tape, self.text = os.memfd_create("tape"), os.memfd_create("text")

    def begin(self, words, tape):
        os.ftruncate(self.text, 0)
        os.lseek(self.text, 0, os.SEEK_SET)
        moves = [(os.POSIX_SPAWN_DUP2, tape, 0), (os.POSIX_SPAWN_DUP2, self.text, 1)]
        return os.posix_spawn(PROGRAM, [PROGRAM, *words], os.environ, file_actions=moves)

    def printed(self):
        return os.pread(self.text, os.fstat(self.text).st_size, 0).decode()

    def run(self, words, tape):
        """The exit code and what is printed."""
        os.ftruncate(self.tape, 0)
        os.lseek(self.tape, 0, os.SEEK_SET)
        os.write(self.tape, tape)
        os.lseek(self.tape, 0, os.SEEK_SET)
        code = os.waitstatus_to_exitcode(os.waitpid(self.begin(words, self.tape), 0)[1])
        return code, self.printed()

    def run_in_parts(self, words, parts):
        """Gives, for each part of a tape, what is printed for those up to it. The tape's pipe has room for a page: two
        pages behind a part are written once the program asks for more behind the first, and so has printed all."""
        tape, part_end = os.pipe()
        fcntl.fcntl(part_end, fcntl.F_SETPIPE_SZ, PAGE)
        pid = self.begin(words, tape)
        os.close(tape)
        try:
            for part in parts:
                for pages in (part + comment(-len(part) % PAGE), comment(PAGE), comment(PAGE)):
                    os.write(part_end, pages)
                yield self.printed()
        finally:
            os.close(part_end)
            os.waitpid(pid, 0)
