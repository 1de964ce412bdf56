"""Tests that a release is compared with the text, and with the program that was built."""
import hashlib

from rrv_tools.tests.repository import Done, InRepository

PROGRAM = "#!/bin/sh\necho 'rrv 1.2.3 (SUM)'\n# GLIBC_2.4 GLIBC_2.34 GLIBC_2.9\n"
SOURCE, BUILT = "crates/rrv/src/main.rt", "crates/rrv/out/rrv"


def sum_of(source: str) -> str:
    """The sum of a text of one file, as the first lines of tools/text_sum define it."""
    lines = f"{hashlib.sha256(source.encode()).hexdigest()}  {SOURCE}\nrrv: std\n\n"
    return hashlib.sha256(lines.encode()).hexdigest()


class Release(InRepository):
    files = {"crates.txt": "rrv: std\n", SOURCE: "text\n"}
    rt = "#!/bin/sh\n[ $1 = version ] && echo 'kit-1 logic 5eed'\n"

    def setUp(self) -> None:
        super().setUp()
        self.build(sum_of("text\n"))
        self.assertEqual(self.tool("release"), Done(0, []))

    def build(self, total: str) -> None:
        """Puts a program there that was built of a text."""
        self.write(BUILT, PROGRAM.replace("SUM", total[:12]))
        (self.root / BUILT).chmod(0o755)

    def test_written(self) -> None:
        self.assertEqual(self.read("release/rrv"), self.read(BUILT))
        self.assertEqual(self.read("release/FROM"), "version: 1.2.3\nmachine: x86-64 Linux, GLIBC 2.34 or later\n"
                         f"kit: kit-1 logic 5eed\ntext: {sum_of('text' + chr(10))}\n")
        self.passes(4, "release", "--check")

    def test_one_byte(self) -> None:
        self.change("release/rrv", "# GLIBC_2.4", "# GLIBC_2.5")
        # The line before has 33 bytes, and the shell's line has 10.
        self.fails("release", "--check", says="release/rrv is not the program that was built: they differ at byte 52")

    def test_longer(self) -> None:
        self.write("release/rrv", self.read(BUILT) + "\n")
        self.fails("release", "--check", says="release/rrv is not the program that was built")

    def test_nothing_built(self) -> None:
        (self.root / BUILT).unlink()
        self.fails("release", "--check", says="release/rrv is not the program that was built: there is no such file")

    def test_older(self) -> None:
        self.write(SOURCE, "newer\n")
        done = self.tool("release", "--check")
        self.assertEqual((done.status, done.lines[-1]), (1, "2 passed, 2 failed"))
        self.assertIn(f"release/FROM is of another text, so tools/run release is to write the release anew; the sum of "
                      f"its text is {sum_of('text' + chr(10))}, wanted {sum_of('newer' + chr(10))}", done.lines[0])

    def test_other_machine(self) -> None:
        self.change("release/FROM", "2.34", "2.4")
        self.fails("release", "--check", says="the machine in release/FROM is x86-64 Linux, GLIBC 2.4 or later")

    def test_other_kit(self) -> None:
        self.change("release/FROM", "kit-1", "kit-2")
        self.write(BUILT, "other\n")
        lines = ["release: release/rrv was built by kit-2 logic 5eed, and the kit here is kit-1 logic 5eed"]
        self.assertEqual(self.tool("release", "--check"), Done(0, [*lines, "compare both", "3 passed, 0 failed"]))

    def test_no_release(self) -> None:
        (self.root / "release/FROM").unlink()
        done = Done(1, ["release: there is no release: tools/run release writes it"])
        self.assertEqual(self.tool("release", "--check"), done)

    def test_of_another_text(self) -> None:
        before = self.read("release/rrv")
        self.build("0" * 64)
        done = self.tool("release")
        self.assertEqual((done.status, len(done.lines)), (1, 1))
        self.assertIn(f"{BUILT} was not built of this text: it prints 'rrv 1.2.3 (000000000000)'", done.lines[0])
        self.assertEqual(self.read("release/rrv"), before)
