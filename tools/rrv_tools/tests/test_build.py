"""Builds with a toolchain that is made up: a library that is there is kept, and one that is begun goes on."""
import os
import shutil
import signal
import time
import unittest

from rrv_tools.prover.crates import Uses, below, chains, product
from rrv_tools.tests.repository import Done, InRepository

RT = """#!/bin/sh
crate=${PWD##*/}
work() {
    echo "$1 $2 $(cat "../$1/out/incremental/part" 2> /dev/null)" >> "$LOG"
    mkdir -p "../$1/out/incremental"
    echo part >> "../$1/out/incremental/part"
    [ "$PAUSE" != "$1" ] || exec sleep 60
}
case $1 in
lib)
    [ -d out/rlib ] || work "$crate" begins
    mkdir -p out/rlib ;;
run)
    for it in low left right; do [ -d ../$it/out/rlib ] || { work $it lacks; exit 1; }; done
    work rrv runs
    cat ../*/src/lib.rt > out/rrv
    chmod +x out/rrv ;;
ci) exit 1 ;;
esac
"""


class Build(InRepository):
    rt = RT
    files = {"crates.txt": "low: std\nleft: low\nright: low\nrrv: left right\n", "crates/rrv/src/main.rt": "main\n",
             "tools/minutes.toml": "low.proof = 1.0\nleft.proof = 2.0\nright.proof = 3.0\nrrv.proof = 1.0\n",
             **{f"crates/{it}/src/lib.rt": f"{it}\n" for it in ("low", "left", "right")}}

    def parts_of_right(self) -> list[str]:
        """What the proof of one crate has made, in each lane."""
        lanes = self.root / "crates/rrv/out/lanes"
        return [it.read_text(encoding="utf-8") for it in lanes.glob("*/crates/right/out/incremental/part")]

    def test_begins_again(self) -> None:
        with self.begin("build", RRV_JOBS="2", PAUSE="right") as ran:
            while ran.poll() is None and self.parts_of_right() != ["part\n"]:
                time.sleep(0.02)
            os.killpg(ran.pid, signal.SIGKILL)
            self.assertEqual((ran.wait(), self.logged()[0]), (-signal.SIGKILL, "low begins "))
        self.assertTrue((self.root / "crates/rrv/out/lanes").exists())
        self.log.unlink()
        done = self.tool("build", RRV_JOBS="2")
        self.assertEqual(done.status, 0, done)
        # The library below was proved, and the proof of another had begun: its part is there to begin with.
        self.assertNotIn("low begins ", self.logged())
        self.assertIn("right begins part", self.logged())
        self.assertEqual(self.logged()[-1], "rrv runs ")
        self.assertEqual(self.read("crates/right/out/incremental/part"), "part\npart\n")
        self.assertFalse((self.root / "crates/rrv/out/lanes").exists())
        self.assertEqual(self.tool("build"), Done(0, []))
        self.assertEqual(self.read("crates/rrv/out/rrv"), "left\nlow\nright\n")

    def test_minutes(self) -> None:
        for jobs, minutes in ((1, 7), (2, 5)):
            done = self.tool("build", RRV_JOBS=str(jobs))
            on = f"{jobs} processor{'s' * (jobs - 1)}"
            self.assertIn(f"rrv: proving and building it takes about {minutes} minutes on {on}, once; ", done.lines[0])
            for it in self.root.glob("crates/*/out"):
                shutil.rmtree(it)

    def test_order(self) -> None:
        self.tool("build", RRV_JOBS="2")
        self.assertEqual(self.logged()[0], "low begins ")
        self.assertEqual({*self.logged()[1:3]}, {"right begins ", "left begins "})

    def test_failure(self) -> None:
        self.write("../kit/bin/rt", RT.replace('work "$crate" begins', '{ echo "no proof of $crate"; exit 1; }'))
        done = self.tool("build", RRV_JOBS="2")
        self.assertEqual((done.status, done.lines[1:]), (1, ["rrv: proving low, crate 1 of 4", "no proof of low"]))
        self.assertFalse((self.root / "crates/rrv/out/rrv").exists())

    def test_no_toolchain(self) -> None:
        text = "rrv: the Rattle toolchain is needed: its command rt is not on the PATH"
        self.assertEqual(self.tool("build", PATH=self.path_without_rt()), Done(1, [text]))

    def test_words(self) -> None:
        for words in (["--by"], ["more"]):
            self.assertEqual(self.tool("build", *words).status, 2)


class Crates(unittest.TestCase):
    uses: Uses = {"low": [], "left": ["low"], "right": ["low"], "other": [], "rrv": ["right", "left"]}

    def test_below(self) -> None:
        self.assertEqual(below(self.uses, "rrv"), ["low", "right", "left"])
        self.assertEqual(product(self.uses), ["low", "left", "right", "rrv"])

    def test_chains(self) -> None:
        minutes = {"low": 1.0, "left": 2.0, "right": 3.0, "other": 9.0, "rrv": 1.0}
        wanted = {"rrv": ["rrv"], "other": ["other"], "right": ["right", "rrv"], "left": ["left", "rrv"],
                  "low": ["low", "right", "rrv"]}
        self.assertEqual(chains(self.uses, minutes), wanted)
