"""The heap for C as one archive, proved and built, and where it is put."""

import glob
import os
import subprocess
import sys
import tempfile

import built
import checkout
import installing
import stated_times

# Each of these has exports of its own, as a static library.
PARTS = ("jsstr_c", "c_reads", "c_bulk")


def prove():
    """Proves the parts with the crates below them, and builds their libraries."""
    checkout.need_rt("the library")
    checkout.tell(f"proving {', '.join(PARTS)} and the crates below them; from nothing that takes about {stated_times.stated('--library')}")
    for it in PARTS:
        if subprocess.call(["rt", "lib", "--jobs", "1"], cwd=checkout.crate(it), stdout=sys.stderr):
            checkout.stop(f"crates/{it} isn't proved, as rt says above, so nothing is built")


def archive():
    """The bytes of one archive: the parts, and the toolchain's calls of malloc, realloc and free."""
    ar, kit = os.environ.get("AR", "ar"), os.path.dirname(checkout.answer_of("rt", "doc"))
    built_parts = [os.path.join(checkout.crate(it), "out", f"lib{it}.a") for it in PARTS]
    with tempfile.TemporaryDirectory() as room:
        try:
            for number, it in enumerate((*built_parts, os.path.join(kit, "c", "liblibc_c.a"))):
                folder = os.path.join(room, str(number))
                os.mkdir(folder)
                subprocess.run([ar, "x", it], cwd=folder, check=True)
            # An archive has one object of a name.
            objects = {os.path.basename(it): it for it in sorted(glob.glob(f"{room}/*/*.o"))}
            subprocess.run([ar, "rcsD", "libjsstr.a", *(objects[it] for it in sorted(objects))], cwd=room, check=True)
        except (OSError, subprocess.CalledProcessError) as fault:
            checkout.stop(f"the archive can't be made: {fault}")
        return installing.read(room, "libjsstr.a")


def files(others=()):
    """Each file of the library, by its path below a prefix, once it is proved and built. `others` are the man pages beside its own."""
    prove()
    whole = archive()
    sums = {"sha256": built.sum_of_bytes(whole), **{f"sha256 of {it}": built.sum_of_bytes(data) for it, data in installing.headers().items()}}
    return installing.library_files(whole, {**checkout.identity(), **sums}, others)


def install(prefix):
    """Proves the library, puts it below the prefix, and answers the prefix's whole path."""
    prefix = installing.checked(prefix)
    put = files(installing.pages_there(prefix, "jsstr.1"))
    installing.put(prefix, put)
    checkout.tell(f"installed below {prefix}: {', '.join(put)}")
    return prefix
