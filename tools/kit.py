"""The kit's prover on a copy of a crate whose text was changed, for tools/refused and tools/mutants. It begins with what `rt check` kept of the crate (crates/NAME/out)."""
import os, re, shutil, subprocess, tempfile

PARTS = ("src", "specs", "proofs")


def home():
    """the kit's folder"""
    return os.path.dirname(subprocess.run(["rt", "doc"], stdout=subprocess.PIPE, text=True, check=True).stdout.strip())


def lines(root):
    """{crate: (whether it is a static library, the libraries that it uses)} of crates.txt"""
    text = open(os.path.join(root, "crates.txt"), encoding="utf-8").read()
    return {m[1]: (bool(m[2]), m[3].split()) for m in re.finditer(r"(?m)^(\w+)( +staticlib)?[^:#\n]*:([^#\n]*)", text)}


def proved(root, crate):
    """proves the crate as it stands, so that its libraries are built and its work is kept; what `rt check` printed, or None"""
    done = subprocess.run(["rt", "check"], cwd=os.path.join(root, "crates", crate), stdout=subprocess.PIPE, stderr=subprocess.STDOUT, text=True)
    return done.stdout if done.returncode == 0 else None


class Copy:
    """a copy of a proved crate in a folder of its own"""

    def __init__(self, root, crate):
        self.home, kit, known = os.path.abspath(os.path.join(root, "crates", crate)), home(), lines(root)
        self.room = tempfile.mkdtemp()
        self.copied(self.room)
        is_static, uses = known[crate]
        rlib = lambda name: os.path.join(os.path.dirname(self.home), name, "out", "rlib")
        own = [name for name in uses if name in known]
        self.words = [f"{kit}/bin/rattle", "check", "--crate-name", crate, "src/main.rt" if os.path.isfile(f"{self.home}/src/main.rt") else "src/lib.rt"]
        for name in ["std"] + [name for name in uses if name not in known]:
            self.words += ["--extern", f"{name}={kit}/rlibs/{name}.rlib"]
        self.words += [word for name in own for word in ("--extern", f"{name}={rlib(name)}/{name}.rlib")] + ["-L", f"dependency={kit}/rlibs"]
        self.words += [word for name in known if os.path.isdir(rlib(name)) for word in ("-L", f"dependency={rlib(name)}")]
        self.words += ["--antt-project", f"{kit}/rattle/logic/antt-project.json", "--logic-built", f"{kit}/logic_built", "--jobs", "1"]
        self.words += ["--crate-type", "staticlib"] * is_static

    def copied(self, to):
        for part in PARTS:
            if os.path.isdir(f"{self.home}/{part}"):
                shutil.copytree(f"{self.home}/{part}", f"{to}/{part}")
        shutil.copytree(f"{self.home}/out/incremental", f"{to}/kept")

    def check(self, texts):
        """(status, output) of a check with these texts {path in the crate: text} in place of its own. What it proves is kept for the next"""
        before = {path: open(f"{self.room}/{path}", encoding="utf-8").read() for path in texts}
        try:
            for path, text in texts.items():
                open(f"{self.room}/{path}", "w", encoding="utf-8").write(text)
            done = subprocess.run(self.words + ["--incremental", "kept"], cwd=self.room, stdout=subprocess.PIPE, stderr=subprocess.STDOUT, text=True)
        finally:
            for path, text in before.items():
                open(f"{self.room}/{path}", "w", encoding="utf-8").write(text)
        return done.returncode, done.stdout

    def gone(self):
        shutil.rmtree(self.room)
