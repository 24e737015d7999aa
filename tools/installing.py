"""Puts files below a prefix, where people and programs look for them, and removes them again.

PREFIX/share/jsstr/installed lists what was put there: each file by its path below PREFIX, and each folder that was made for them, with a / behind
it.
"""

import contextlib
import os

import answers
import built
import checkout
import pages

TOOLS = os.path.join(checkout.ROOT, "tools")
SHARE = os.path.join("share", "jsstr")
LIST = os.path.join(SHARE, "installed")
# The parts of the wrapper and of jsstr-where, which they look for in PREFIX/share/jsstr.
PARTS = ("arguments.py", "checking.py", "explaining.py", "faults.py", "hints.py", "inputs.py", "methods.py", "naming.py", "reading.py", "running.py", "trial.py", "where.py")
# The player of schedules, where `rt run` has built it from its sources as they are.
PLAYER = os.path.join(checkout.crate("jssched"), "out", "jssched")


def read(*path):
    with open(os.path.join(*path), "rb") as file:
        return file.read()


def has_player():
    return os.access(PLAYER, os.X_OK) and built.is_newer(PLAYER, built.crates("jssched"))


def program_files(record, others=()):
    """Each file of the program by its path below the prefix: its bytes, and whether it is run. `others` are the man pages beside its own."""
    version = checkout.version()
    others = (*others, *(["jssched.1"] if has_player() else []))
    files = {
        "bin/jsstr": (read(TOOLS, "jsstr-installed"), True),
        "bin/jsstr-where": (read(TOOLS, "jsstr-where"), True),
        "libexec/jsstr/jsstr": (read(built.PROGRAM), True),
        f"{SHARE}/help": (answers.program_help().encode(), False),
        f"{SHARE}/jsstr.proved": (checkout.spelled(record).encode(), False),
        f"{SHARE}/VERSION": (f"{version}\n".encode(), False),
        **{f"{SHARE}/{it}": (read(TOOLS, it), False) for it in PARTS},
        "share/man/man1/jsstr.1": (pages.jsstr_page(version, others).encode(), False),
        "share/man/man7/jsstr-language.7": (pages.language_page(version).encode(), False),
        "share/man/man1/jsstr-where.1": (pages.where_page(version).encode(), False),
        "share/bash-completion/completions/jsstr": (pages.bash().encode(), False),
        "share/zsh/site-functions/_jsstr": (pages.zsh().encode(), False),
        "share/fish/vendor_completions.d/jsstr.fish": (pages.fish().encode(), False),
    }
    if has_player():
        files["bin/jssched"] = (read(PLAYER), True)
        files["share/man/man1/jssched.1"] = (pages.sched_page(version).encode(), False)
    return files


def pkg_config(version):
    """The library's flags. They go by where the file lies, so that the whole may be moved."""
    return (
        "prefix=${pcfiledir}/../..\nincludedir=${prefix}/include\nlibdir=${prefix}/lib\n\n"
        "Name: jsstr\nDescription: A proved heap of strings for a JavaScript engine\n"
        f"Version: {version}\nCflags: -I${{includedir}}\nLibs: -L${{libdir}} -ljsstr\n"
    )


def cmake_config():
    """The target jsstr::jsstr of CMake. It goes by where the file lies, too."""
    return (
        "# The heap of strings of jsstr, for C and C++: the target jsstr::jsstr.\n"
        "if(NOT TARGET jsstr::jsstr)\n"
        '  get_filename_component(jsstr_prefix "${CMAKE_CURRENT_LIST_DIR}/../../.." ABSOLUTE)\n'
        "  add_library(jsstr::jsstr STATIC IMPORTED)\n"
        "  set_target_properties(jsstr::jsstr PROPERTIES\n"
        '    IMPORTED_LOCATION "${jsstr_prefix}/lib/libjsstr.a"\n'
        "    IMPORTED_LINK_INTERFACE_LANGUAGES C\n"
        '    INTERFACE_INCLUDE_DIRECTORIES "${jsstr_prefix}/include")\n'
        "  unset(jsstr_prefix)\n"
        "endif()\n"
    )


def cmake_version(version):
    """Says of a version that is asked for whether this one will do: one of the same major version that is at most this one."""
    major = version.partition(".")[0]
    return (
        f"set(PACKAGE_VERSION {version})\n"
        'if("${CMAKE_SIZEOF_VOID_P}" STREQUAL "4")\n'
        "  set(PACKAGE_VERSION_UNSUITABLE TRUE)\n"
        "endif()\n"
        f"if(PACKAGE_FIND_VERSION_MAJOR EQUAL {major} AND NOT PACKAGE_FIND_VERSION VERSION_GREATER PACKAGE_VERSION)\n"
        "  set(PACKAGE_VERSION_COMPATIBLE TRUE)\n"
        "endif()\n"
        "if(PACKAGE_FIND_VERSION VERSION_EQUAL PACKAGE_VERSION)\n"
        "  set(PACKAGE_VERSION_EXACT TRUE)\n"
        "endif()\n"
    )


def headers():
    """The headers for C, that of the calls that test nothing, and the one for C++."""
    return {it: read(checkout.ROOT, "include", it) for it in ("jsstr.h", "jsstr_unchecked.h", "jsstr.hpp")}


def library_files(archive, record, others=()):
    """Each file of the library, in the same form."""
    version, said = checkout.version(), headers()
    page = pages.library_page(version, *(it.decode() for it in said.values()), others)
    return {
        **{f"include/{it}": (data, False) for it, data in said.items()},
        "lib/libjsstr.a": (archive, False),
        "lib/cmake/jsstr/jsstrConfig.cmake": (cmake_config().encode(), False),
        "lib/cmake/jsstr/jsstrConfigVersion.cmake": (cmake_version(version).encode(), False),
        "lib/pkgconfig/jsstr.pc": (pkg_config(version).encode(), False),
        f"{SHARE}/library.proved": (checkout.spelled(record).encode(), False),
        "share/man/man3/jsstr.3": (page.encode(), False),
    }


def missing_folders(prefix, names):
    """The folders that these files need below the prefix and that aren't there, each with a / behind it."""
    for name in names:
        folder = os.path.dirname(name)
        while folder and not os.path.isdir(os.path.join(prefix, folder)):
            yield f"{folder}/"
            folder = os.path.dirname(folder)


def listed(prefix):
    """What was put below the prefix."""
    with contextlib.suppress(OSError):
        return read(prefix, LIST).decode().splitlines()
    return []


def write(path, data, is_run):
    os.makedirs(os.path.dirname(path), exist_ok=True)
    with open(path, "wb") as file:
        file.write(data)
    os.chmod(path, 0o755 if is_run else 0o644)


def put(prefix, files):
    """Puts the files below the prefix, all of them or none."""
    names = sorted({*listed(prefix), *files, LIST, *missing_folders(prefix, [*files, LIST])})
    files = {**files, LIST: ("".join(f"{it}\n" for it in names).encode(), False)}
    new = {os.path.join(prefix, name): f".new-{os.getpid()}" for name in files}
    try:
        for path in filter(os.path.isdir, new):
            checkout.stop(f"{path} is a folder, and a file can't be put there: remove it, or name another prefix")
        for name, (data, is_run) in files.items():
            path = os.path.join(prefix, name)
            write(path + new[path], data, is_run)
        for path, ending in new.items():
            os.replace(path + ending, path)
    except OSError as error:
        checkout.stop(f"{error.filename} can't be written ({error.strerror}), so nothing is installed: name a prefix that can")
    finally:
        for path in filter(os.path.exists, (path + ending for path, ending in new.items())):
            os.remove(path)


def pages_there(prefix, *names):
    """Those of these man pages that were put below the prefix before."""
    there = {os.path.basename(it) for it in listed(prefix)}
    return [it for it in names if it in there]


def checked(prefix):
    """The whole path of a prefix, which holds bin/ and is none."""
    if not prefix or prefix.startswith("-"):
        checkout.stop("name the folder below which bin/, share/ and the others are, as in tools/jsstr --install ~/.local; one that begins with - as ./-x")
    path = os.path.abspath(prefix)
    if os.path.basename(path) == "bin":
        checkout.stop(f"name the folder above bin: tools/jsstr --install {os.path.dirname(path)} puts the program into {path}")
    if os.path.lexists(path) and not os.path.isdir(path):
        checkout.stop(f"{prefix} is no folder: name another prefix")
    return path


def install(prefix):
    prefix, record = checked(prefix), built.record()
    if not record:
        checkout.stop("there is no program of --build to install: run tools/jsstr --build first")
    if record["sources"] != built.sources():
        checkout.tell("the sources have changed since the program was built; it is installed as it is, and tools/jsstr --build builds it anew")
    files = program_files(record, pages_there(prefix, "jsstr.3"))
    put(prefix, files)
    checkout.tell(f"installed {', '.join(os.path.join(prefix, it) for it in files if it.startswith('bin/'))}, with man pages and completions below {os.path.join(prefix, 'share')}")
    return 0


def uninstall(prefix):
    prefix = checked(prefix)
    names = listed(prefix)
    if not names:
        checkout.stop(f"{prefix} has no {LIST}, so nothing was installed there")
    try:
        for name in sorted(names, key=lambda it: (it == LIST, it)):
            remove_file(prefix, name)
        for name in sorted(names, reverse=True):
            remove_folder(prefix, name)
    except OSError as error:
        checkout.stop(f"{error.filename} can't be removed ({error.strerror}): the rest is still there")
    checkout.tell(f"removed {sum(not it.endswith('/') for it in names)} files below {prefix}")
    return 0


def path_below(prefix, name):
    path = os.path.normpath(os.path.join(prefix, name))
    if os.path.isabs(name) or not path.startswith(prefix.rstrip(os.sep) + os.sep):
        checkout.stop(f"{os.path.join(prefix, LIST)} names {name}, which isn't below the prefix: nothing more is removed")
    return path


def remove_file(prefix, name):
    path = path_below(prefix, name)
    if not name.endswith("/"):
        with contextlib.suppress(FileNotFoundError):
            os.remove(path)


def remove_folder(prefix, name):
    """Removes a folder that was made for the files, if it is empty."""
    if name.endswith("/"):
        with contextlib.suppress(OSError):
            os.rmdir(path_below(prefix, name))
