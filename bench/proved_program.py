"""Builds a program over copies of the crates that it calls, which is proved and built as the gate does it (`rt ci`): there what
the gate passed on this machine isn't proved again."""
import os
import shutil
import subprocess
import sys

ROOT = os.path.dirname(os.path.dirname(os.path.abspath(__file__)))


def crates_below(names):
    """The lines of crates.txt for these crates and those that they stand on."""
    with open(os.path.join(ROOT, "crates.txt")) as file:
        lines = [line for line in file if not line.startswith("#")]
    needs = {line.split(":")[0]: line.split(":")[1].split() for line in lines}
    wanted, left = set(), list(names)
    while left:
        name = left.pop()
        if name in needs and name not in wanted:
            wanted.add(name)
            left += needs[name]
    return [line for line in lines if line.split(":")[0] in wanted]


def build(scratch, name, crates, program):
    """The path of the program of this name and text, which without words says nothing, over these crates."""
    lines = crates_below(crates)
    with open(os.path.join(scratch, "crates.txt"), "w") as file:
        file.writelines(lines)
        file.write(f"{name}: {' '.join(crates)}\n")
    for line in lines:
        crate = line.split(":")[0]
        shutil.copytree(
            os.path.join(ROOT, "crates", crate),
            os.path.join(scratch, "crates", crate),
            ignore=shutil.ignore_patterns("out", "must-fail", "more-edits"),
        )
    folder = os.path.join(scratch, "crates", name)
    os.makedirs(os.path.join(folder, "src"))
    with open(os.path.join(folder, "src", "main.rt"), "w") as file:
        file.write(program)
    shutil.copy(os.path.join(ROOT, "HANDLES"), scratch)
    subprocess.run(["rt", "fmt"], cwd=folder, stdout=subprocess.DEVNULL, check=False)
    print("proving and building takes some minutes", file=sys.stderr)
    built = subprocess.run(["rt", "ci"], cwd=scratch, stdout=subprocess.PIPE, stderr=subprocess.STDOUT, text=True)
    made = os.path.join(folder, "out", name)
    if not os.path.exists(made):
        told = [line for line in built.stdout.splitlines() if "error" in line or line.startswith("note:")]
        sys.exit("\n".join([f"{name} can't be built:", *told[:20]]))
    return made
