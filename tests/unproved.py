"""Programs of the port compiled without proofs: what a wrong port is, since no proof passes it."""

import os
import shutil
import subprocess

HERE = os.path.dirname(os.path.abspath(__file__))
TOP = os.path.dirname(HERE)


def depends():
    """Each crate of crates.txt with what it stands on."""
    deps = {}
    for line in open(os.path.join(TOP, "crates.txt")):
        line = line.split("#")[0]
        if ":" in line:
            name, on = line.split(":")
            deps[name.split()[0]] = on.split()
    return deps


LINKER = """#!/bin/sh
%s "$@" || exit
while [ "$1" != -o ]; do shift; done
cp "$2" %s
"""


class Kit:
    """The toolchain, with a linker that leaves a copy of what it links. `rt try` compiles programs that are not proved, and keeps none."""

    def __init__(self, where):
        real = os.path.dirname(os.path.dirname(os.path.realpath(shutil.which("rt"))))
        self.home = os.path.join(where, "kit")
        self.linked = os.path.join(where, "linked")
        self.stand_for(real, self.home, ("bin", "toolchain"))
        self.stand_for(os.path.join(real, "bin"), os.path.join(self.home, "bin"), ("rt", "rtlib.py"))
        # rt takes the toolchain beside its own file
        for name in ("rt", "rtlib.py"):
            shutil.copy(os.path.join(real, "bin", name), os.path.join(self.home, "bin", name))
        tools = os.path.join(self.home, "toolchain")
        self.stand_for(os.path.join(real, "toolchain"), tools, ("bin",))
        self.stand_for(os.path.join(real, "toolchain/bin"), os.path.join(tools, "bin"), ("ld.lld",))
        script = os.path.join(tools, "bin/ld.lld")
        with open(script, "w") as f:
            f.write(LINKER % (os.path.join(real, "toolchain/bin/ld.lld"), self.linked))
        os.chmod(script, 0o755)

    def stand_for(self, real, folder, apart):
        os.makedirs(folder)
        for name in os.listdir(real):
            if name not in apart:
                os.symlink(os.path.join(real, name), os.path.join(folder, name))


def copied(program, top):
    """The sources that the program stands on, copied to where they can be changed."""
    deps = depends()
    shutil.rmtree(top, ignore_errors=True)
    names = [n for n in deps[program] + [program] if n in deps]
    for name in names:
        shutil.copytree(os.path.join(TOP, "crates", name, "src"), os.path.join(top, "crates", name, "src"))
    with open(os.path.join(top, "crates.txt"), "w") as f:
        f.writelines("%s: %s\n" % (n, " ".join(deps[n])) for n in names)


def compiled(kit, program, top, out):
    """Compiles what `copied` copied, changed or not; whether that went."""
    if os.path.exists(kit.linked):
        os.remove(kit.linked)
    done = subprocess.run([os.path.join(kit.home, "bin/rt"), "try"], cwd=os.path.join(top, "crates", program), stdin=subprocess.DEVNULL,
                          stdout=subprocess.PIPE, stderr=subprocess.STDOUT, text=True)
    if not os.path.exists(kit.linked):
        print(done.stdout[-1200:])
        return False
    shutil.move(kit.linked, out)
    return True
