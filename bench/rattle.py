"""The programs in Rattle that are measured: the proved one, and small ones over the crates as they stand."""
import os
import shutil
import subprocess
import sys
import tempfile

HERE = os.path.dirname(os.path.realpath(__file__))
TOP = os.path.dirname(HERE)
ENTRIES = ("cache_base cache_io disk_theory jenkins_hash entry_name entry_key entry_parts entry_metadata chunk_store "
           "entry_file index_record record_list index_file index_journal index_map index_theory")
DISK = "machine_files folder_paths pending_syncs real_disk"
# The crates below each small program, and those that it names itself.
PROGRAMS = {
    "hash": ("cache_base jenkins_hash", "jenkins_hash"),
    "index": ("cache_base jenkins_hash entry_key entry_parts entry_metadata index_record record_list index_file",
              "cache_base jenkins_hash index_record record_list index_file"),
    "open_index": (f"{ENTRIES} startup_read {DISK}",
                   "cache_base cache_io disk_theory index_record index_map startup_read real_disk"),
    "update": (f"{ENTRIES} index_update {DISK}",
               "cache_base cache_io disk_theory index_record index_map index_update real_disk"),
}


def proved(program, room):
    """A copy of the program, or of the proved one, which no build replaces while it is measured."""
    if not program:
        subprocess.run([os.path.join(TOP, "cache2"), "--proved"], check=True)
    return shutil.copy(program or os.path.join(TOP, "crates/cache2/out/cache2"), os.path.join(room, "cache2"))


def build(name, room, plain):
    """Proves and builds a small program, in a repository of its own with the crates as they stand. Of these the proofs
    that `rt ci` kept on this machine are taken. It also runs the program without words, which has to print what the
    plain one prints then."""
    below, uses = PROGRAMS[name]
    with tempfile.TemporaryDirectory() as top:
        os.mkdir(os.path.join(top, ".git"))
        with open(os.path.join(TOP, "crates.txt"), encoding="utf-8") as file:
            lines = [line for line in file if line.split(":")[0] in below.split()]
        with open(os.path.join(top, "crates.txt"), "w", encoding="utf-8") as file:
            file.writelines([*lines, f"{name}_bench: {uses}\n"])
        shutil.copy(os.path.join(TOP, "HANDLES"), top)
        for crate in below.split():
            shutil.copytree(os.path.join(TOP, "crates", crate), os.path.join(top, "crates", crate),
                            ignore=shutil.ignore_patterns("out", "must-fail"))
        folder = os.path.join(top, "crates", f"{name}_bench")
        os.makedirs(os.path.join(folder, "src"))
        shutil.copy(os.path.join(HERE, "programs", f"{name}.rattle"), os.path.join(folder, "src/main.rt"))
        if "cache_io" in uses:
            shutil.copy(os.path.join(HERE, "programs/lines.rattle"), os.path.join(folder, "src/lines.rt"))
        with open(os.path.join(folder, "stdout"), "wb") as file:
            subprocess.run([plain], stdout=file, check=True)
        print("proving and building the Rattle program", flush=True)
        ran = subprocess.run(["rt", "ci"], cwd=top, stdout=subprocess.PIPE, stderr=subprocess.STDOUT, check=False)
        if ran.returncode:
            print(ran.stdout.decode(errors="replace"))
            sys.exit(2)
        return shutil.copy(os.path.join(folder, "out", f"{name}_bench"), os.path.join(room, "rattle"))
