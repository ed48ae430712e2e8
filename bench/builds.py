"""Builds the programs of bench/ into bench/out."""

import os
import subprocess
import sys

HERE = os.path.dirname(os.path.abspath(__file__))
OUT = os.path.join(HERE, "out")
RUSTC = ["rustc", "--edition", "2024", "-O", "-C", "codegen-units=1", "-C", "target-cpu=x86-64-v2"]
# Compilers of the programs by others, and the libraries that they link.
C = ["cc", "-O2", "-Wall"]
BERKELEY = ["-ldb-5.3", "-lpthread"]
CXX = ["c++", "-std=c++20", "-O2", "-Wall"]
ROCKS = ["-lrocksdb", "-lpthread"]
TOP = os.path.dirname(HERE)


def in_out(name):
    """The path of a program or another file that is built."""
    return os.path.join(OUT, name)


def crate(name, goal):
    """Builds a crate by `rt run` or `rt lib`, which proves it, and answers the folder of what was built."""
    os.makedirs(OUT, exist_ok=True)
    folder = os.path.join(HERE, "..", "crates", name)
    with open(in_out(name + ".log"), "w", encoding="utf-8") as log:
        if subprocess.run(["rt", goal], cwd=folder, stdout=log, stderr=log, check=False).returncode != 0:
            sys.exit(f"crates/{name} cannot be built: {log.name}")
    return os.path.join(folder, "out")


def over_tables(name):
    """Builds a program in Rust over the static library of crates/bench_table, which is built before."""
    page = subprocess.run(["rt", "doc"], stdout=subprocess.PIPE, text=True, check=True).stdout.strip()
    libraries = [os.path.join(crate("bench_table", "lib"), "libbench_table.a"), os.path.join(os.path.dirname(page), "c", "liblibc_c.a")]
    links = [flag for library in libraries for flag in ("-C", "link-arg=" + library)]
    subprocess.run([*RUSTC, "-o", in_out(name), os.path.join(HERE, name + ".rs"), *links], check=True)


def by_others(source):
    """Builds a program in Rust, or in C or C++ over Berkeley DB or RocksDB. Answers whether it could be built; if not, it is named."""
    name, kind = os.path.splitext(source)
    compiler, libraries = {".rs": (RUSTC, []), ".c": (C, BERKELEY), ".cc": (CXX, ROCKS)}[kind]
    command = [*compiler, "-o", in_out(name), source, *libraries]
    os.makedirs(OUT, exist_ok=True)
    done = subprocess.run(command, cwd=HERE, stderr=subprocess.DEVNULL, check=False).returncode == 0
    if not done:
        print(f"{name} cannot be built, and is passed over: {' '.join(command)}", file=sys.stderr)
    return done


def over_library(source, *archives):
    """Builds a program in C over the C library, or in Rust by the crate of clients/rust. Answers as by_others. The library has to be proved."""
    name, library, crate = os.path.splitext(source)[0], in_out("library"), in_out("libpashkure.rlib")
    os.makedirs(OUT, exist_ok=True)
    commands = [[os.path.join(TOP, "mmdetect"), "library", library]]
    if source.endswith(".rs"):
        flags = ["--crate-type", "rlib", "--crate-name", "pashkure", "-L", f"native={library}/lib", "-l", "static=pashkure"]
        commands.append(["rustc", "--edition", "2021", "-O", *flags, "-o", crate, os.path.join(TOP, "clients", "rust", "src", "lib.rs")])
        commands.append([*RUSTC, "-o", in_out(name), source, "--extern", f"pashkure={crate}"])
    else:
        commands.append([*C, f"-I{library}/include", "-o", in_out(name), source, *archives, f"{library}/lib/libpashkure.a", "-lpthread"])
    failed = next((command for command in commands if subprocess.run(command, cwd=HERE, stderr=subprocess.DEVNULL, check=False).returncode != 0), None)
    if failed:
        print(f"{name} cannot be built, and is passed over: {' '.join(failed)}", file=sys.stderr)
    return failed is None
