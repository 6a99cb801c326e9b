"""The commands build what they run where it is missing or old, with a stand-in for the kit."""
import os
import shutil
import tempfile
import unittest

from support import ToolCase, path, run

PROGRAM = "#!/bin/sh\ncat > /dev/null\necho refused 1\n"


class Building(ToolCase):

    def setUp(self):
        kept = tempfile.TemporaryDirectory()
        self.addCleanup(kept.cleanup)
        self.folder = kept.name
        shutil.copytree(path("bin"), self.at("bin"), symlinks=True)
        self.write("crates.txt", "model:\nother:\nringctl: model check  # the program\n")
        for crate in ("model", "other", "ringctl"):
            self.write("crates/%s/src/lib.rt" % crate, "")
        self.kit("mkdir -p out && printf '%s' \"$PROGRAM\" > out/ringctl && chmod +x out/ringctl")

    def at(self, name):
        return os.path.join(self.folder, name)

    def write(self, name, text):
        os.makedirs(os.path.dirname(self.at(name)), exist_ok=True)
        with open(self.at(name), "w") as out:
            out.write(text)

    def kit(self, script):
        self.write("kit/rt", "#!/bin/sh\necho called >> %s\n%s\n" % (self.at("calls"), script))
        os.chmod(self.at("kit/rt"), 0o755)

    def ring(self, kit="kit"):
        words = {"PATH": self.at(kit) + ":" + os.environ["PATH"], "PROGRAM": PROGRAM}
        if kit != "kit":
            words["PATH"] = os.path.dirname(shutil.which("python3")) + ":/usr/bin:/bin"
        return run([self.at("bin/ringctl")], env=words)

    def calls(self):
        if not os.path.exists(self.at("calls")):
            return 0
        with open(self.at("calls")) as calls:
            return len(calls.readlines())

    def test_builds_once_and_says_so(self):
        self.check(self.ring(), 1, b"refused 1\n", "^ringctl: proving and building ringctl first; from nothing this takes some minutes")
        self.check(self.ring(), 1, b"refused 1\n")
        self.assertEqual(self.calls(), 1)

    def test_builds_again_after_a_change(self):
        self.ring()
        for name, wanted in (("crates/other/src/lib.rt", 1), ("crates/model/src/lib.rt", 2), ("crates.txt", 3)):
            later = os.stat(self.at("crates/ringctl/out/ringctl")).st_mtime + 5
            os.utime(self.at(name), (later, later))
            self.ring()
            self.assertEqual(self.calls(), wanted, name)
            earlier = later - 100
            os.utime(self.at(name), (earlier, earlier))
            self.ring()

    def test_a_build_that_fails(self):
        self.kit("echo model: not proved\nexit 1")
        self.check(self.ring(), 2, b"", "model: not proved\nringctl: ringctl was not built\n$")

    @unittest.skipIf(any(os.access(os.path.join(p, "rt"), os.X_OK) for p in ("/usr/bin", "/bin", os.path.dirname(shutil.which("python3")))),
                     "the kit stands beside python3")
    def test_no_kit(self):
        self.check(self.ring("no-kit"), 2, b"", "`rt` is not on the path")

    def test_a_program_that_fails(self):
        self.ring()
        for text, said in (("cat > /dev/null\nexit 3\n", "ended with status 3"), ("cat > /dev/null\n", "printed nothing"),
                           ("echo ring 3\necho 'ringctl: standard output cannot be written' >&2\n", "^ringctl: standard output cannot be written\n$")):
            self.write("crates/ringctl/out/ringctl", "#!/bin/sh\n" + text)
            self.check(self.ring(), 2, b"", said)


if __name__ == "__main__":
    unittest.main()
