"""Tests of tools/jsstr --build."""

import os
import shutil
import signal

from test_house import check, wait_for


def failed_builds(house):
    house.write("out/build/old.log", "of an earlier build\n")
    house.write("crates/left/src/lib.rt", "// broken\n")
    status, out, err = house.call("--build")
    check("a crate that isn't proved ends the build, with its log", status == 125 and "error: it is broken" in err and "left.log" in err, err)
    check("it leaves nothing that looks built", not house.left(), str(house.left()))
    house.write("crates/left/src/lib.rt", "// left\n")
    status, out, err = house.call("--build", PRINTS="a")
    check("a program that prints something else is not built", status == 125 and not house.left(), err)
    for name in ("low", "left", "right"):
        shutil.rmtree(f"{house.root}/crates/{name}/out")
        os.remove(f"{house.trace}/{name}")
    ran = house.start("--build", SLOW="60")
    wait_for(f"{house.trace}/low")
    status, out, err = house.call("--build")
    check("a second build beside the first is refused", status == 125 and "another" in err, err)
    ran.send_signal(signal.SIGINT)
    out, err = ran.communicate()
    check("an interrupted build says so, and leaves nothing that looks built", ran.returncode == 130 and "nothing is built" in err and not house.left(), err + str(house.left()))


def whole_build(house):
    house.forget()
    status, out, err = house.call("--build", MEET="yes" if len(os.sched_getaffinity(0)) > 1 else "no")
    check("a build ends well, with crates that don't wait for one another side by side", (status, out) == (0, ""), err)
    check("the logs are those of this build", sorted(os.listdir(f"{house.root}/out/build")) == ["jsstr.log", "left.log", "lock", "low.log", "right.log"])
    check("it says how far it is", all(it in err for it in (" 1 of 4  low", " 4 of 4  jsstr")), err)
    check("it proves what the program stands on, and no more", sorted(os.listdir(house.trace)) == ["left", "low", "right"], str(os.listdir(house.trace)))
    check("what was proved is in the checkout", house.has("crates/left/out/rlib/stamp") and house.has("crates/left/out/incremental/a.oantt"))
    status, out, err = house.call("--build")
    check("what is built from these sources is not built again", status == 0 and "already" in err, err)
    check("the gate may take crates/*/out away", (shutil.rmtree(f"{house.root}/crates/jsstr/out"), house.call("x")[1])[1] == "built x\n")


def changed_sources(house):
    house.write("crates/right/src/lib.rt", "// changed\n")
    status, out, err = house.call("x")
    check("changed sources are told in one line, and the program runs", (status, out, err.count("\n")) == (3, "built x\n", 1), err)
    house.write("crates/right/src/lib.rt", "// right\n")
    house.write("crates/other/src/lib.rt", "// changed\n")
    check("a crate that the program doesn't stand on doesn't matter", house.call("x")[2] == "")


def closed_folder(house):
    """As root, who may write everywhere, nothing is shown."""
    os.chmod(f"{house.root}/crates/low", 0o555)
    if not os.access(f"{house.root}/crates/low", os.W_OK):
        status, out, err = house.call("--build")
        check("a folder that can't be written is told", (status, err.count("\n")) == (125, 1) and "crates/low" in err, err)
    os.chmod(f"{house.root}/crates/low", 0o755)
