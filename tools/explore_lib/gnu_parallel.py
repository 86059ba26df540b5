"""Hands the batches to GNU parallel, which moves them to other computers, and tries them again."""

import shlex
import shutil
import subprocess
from collections.abc import Iterator
from pathlib import Path

from shared_lib.faults import Fault

from .batches import Batch, WorkFolder
from .workers import Workers, end_group, start_group

TRIES = 3


class GnuParallel(Workers):
    """Runs batches by `parallel --sshlogin`.

    Where the folder isn't shared, the files are copied below the home folder of each computer and
    taken away behind the run. Answers come back over standard output, each line behind the name of
    its batch, all lines of a batch together.
    """

    def __init__(self, logins: list[str], jobs: int | None, is_shared: bool, log: Path):
        if not shutil.which("parallel"):
            raise Fault("GNU parallel isn't there (Debian: apt-get install parallel)")
        self._logins = logins or [":"]
        self._jobs = jobs
        self._is_shared = is_shared
        self._log = log
        self._process: subprocess.Popen[bytes] | None = None
        self._output = Path()
        self._place = 0
        self._lines: dict[str, list[str]] = {}

    def start(self, work: WorkFolder, batches: list[Batch]) -> None:
        names = work.path / "batches"
        names.write_text("".join(f"{batch.name}\n" for batch in batches))
        self._output = work.path / "answers"
        self._place = 0
        self._lines.clear()
        with self._output.open("wb") as output, self._log.open("ab") as log:
            words = [*self._words(work), "::::", str(names)]
            log.write(f"$ {shlex.join(words)}\n".encode())
            log.flush()
            self._process = start_group(words, work.path.parent, output, log)

    def is_over(self) -> bool:
        return self._process is None or self._process.poll() is not None

    def answers(self) -> Iterator[tuple[str, str]]:
        with self._output.open("rb") as output:
            output.seek(self._place)
            for line in output:
                if not line.endswith(b"\n"):
                    break
                self._place += len(line)
                name, _, text = line.decode(errors="replace").partition("\t")
                self._lines.setdefault(name, []).append(text)
                if text.startswith("status "):
                    yield name, "".join(self._lines.pop(name))

    def stop(self) -> None:
        if self._process is not None:
            end_group(self._process, asked=2)  # the first one would let the running batches end
            self._process = None

    def _words(self, work: WorkFolder) -> list[str]:
        """The command line, but for the batches."""
        words = ["parallel", "--tag", "--retries", str(TRIES)]
        if self._jobs is not None:
            words += ["--jobs", str(self._jobs)]
        for login in self._logins:
            words += ["--sshlogin", login]
        if self._is_shared:
            return [*words, "--workdir", str(work.path), "./batch.sh"]
        folder = work.path.name
        for name in work.common:
            words += ["--basefile", f"{folder}/{name}"]
        words += ["--transferfile", f"{folder}/{{}}.tar", "--cleanup"]
        return [*words, f"{folder}/batch.sh"]
