#!/usr/bin/env python3
"""sweep.py [--jobs N] [--only TEXT]: every small change of canboat's two files, one at a time, against the unchanged Rust.

A change is a number one up or down, a comparison or operator turned, a condition negated, or a statement left out. Each changed copy
is built and compared with the unchanged Rust by `oracle compare .. quick`; what quick does not find is printed, to be looked at: a
gap of the generators, or a change that no call can show. Changes that do not compile are counted apart. Takes some six minutes.
"""
import argparse
import concurrent.futures
import os
import re
import shutil
import subprocess
import sys
import tempfile

HERE = os.path.dirname(os.path.abspath(__file__))
PAPERS = os.environ.get("CANBOAT_SRC", os.path.join(HERE, "../../shared/docs/src"))
ENGINE = "crates/canboat/src/engine"
# which programs a file can show in
PROGRAMS = {
    "format/ngt1.rs": ["replay_framing", "replay_encode", "replay_records", "replay_session"],
    "codec/ngt1_tx_list.rs": ["replay_encode", "replay_session"],
}

# Left out of the port, or text that nothing compares.
LEFT_OUT = [
    r"impl std::fmt::Display", r"pub fn error_name", r"pub fn describe_error", r"pub fn collect_text", r"pub fn take_text",
    r"pub enum ", r"pub struct ", r"struct ", r"enum ", r"fn read_for_test", r"pub fn push_bytes",
]
TURNS = [
    (r" >= ", " > "), (r" > ", " >= "), (r" <= ", " < "), (r" < ", " <= "), (r" == ", " != "), (r" != ", " == "),
    (r" && ", " || "), (r" \|\| ", " && "), (r" \+ ", " - "), (r" - ", " + "), (r" << ", " >> "), (r" >> ", " << "),
    (r"\btrue\b", "false"), (r"\bfalse\b", "true"), (r"\bis_some_and\b", "is_none_or"), (r"\.is_empty\(\)", ".len() > 1"),
    (r"\bwrapping_add\b", "wrapping_sub"), (r"\bwrapping_sub\b", "wrapping_add"), (r"\bfrom_le_bytes\b", "from_be_bytes"),
    (r"\bto_le_bytes\b", "to_be_bytes"), (r"\bnext_back\b", "next"), (r"\|=", "="), (r"!known", "known"), (r"!have", "have"),
    (r"!record", "record"), (r"!pgns", "pgns"), (r"if !", "if "),
]
STATEMENT = re.compile(r"^\s+(self\.[\w.]+ = .*|self\.[\w.]+\.(clear|push)\(.*\)|[\w.]+\.(push|extend\w*|append|add)\(.*\)|\*?\w+ = [^=].*|sum = .*);$")
NUMBER = re.compile(r"(?<![\w.])(0x[0-9a-fA-F_]+|[0-9][0-9_]*)(?![\w.]*\.[0-9])(?=\b|u8|u16|u32|u64|usize)")


def code_lines(text):
    """The numbers of the lines that are code of the port's part."""
    skip_until = None
    in_log = False
    for number, line in enumerate(text.split("\n")):
        bare = line.strip()
        indent = len(line) - len(line.lstrip())
        if skip_until is not None:
            if bare == "}" and indent <= skip_until:
                skip_until = None
            continue
        if any(re.match(p, bare) for p in LEFT_OUT) and bare.endswith("{"):
            skip_until = indent
            continue
        if in_log:
            in_log = not re.search(r"\);?,?$", bare) or bare.count("(") > bare.count(")")
            continue
        if "log::" in bare:
            in_log = not re.search(r"\)[;,]?$", bare)
            continue
        if not bare or bare.startswith(("//", "#[", "use ", "pub use ")) or '"' in bare:
            continue
        # how much memory is asked for cannot be seen; constants of other formats and of messages that nothing here reads
        if "with_capacity" in bare or re.search(r"const (ESC|SOH|LF|FILETIME\w*|EBL\w*|BEM_(STARTUP|ERROR|SYSTEM|NEGATIVE)\w*)\b", bare):
            continue
        yield number


def changes(file, text):
    """(line number, new line) for every change of a file."""
    lines = text.split("\n")
    for number in code_lines(text):
        line = lines[number].split(" // ")[0]
        for m in NUMBER.finditer(line):
            value = int(m.group(1).replace("_", ""), 0)
            for other in (value + 1, value - 1):
                if other >= 0:
                    yield number, line[: m.start(1)] + str(other) + line[m.end(1):]
        for pattern, new in TURNS:
            for m in re.finditer(pattern, line):
                yield number, line[: m.start()] + new + line[m.end():]
        if STATEMENT.match(line):
            yield number, ""


def run(command, **options):
    return subprocess.run(command, stdout=subprocess.PIPE, stderr=subprocess.STDOUT, text=True, **options)


def attempt(slot, genuine, file, number, new):
    """'found by PART', 'not found' or 'does not compile'."""
    papers = os.path.join(slot, "papers")
    path = os.path.join(papers, ENGINE, file)
    original = open(os.path.join(PAPERS, ENGINE, file)).read().split("\n")
    original[number] = new
    with open(path, "w") as f:
        f.write("\n".join(original))
    env = dict(os.environ, CANBOAT_SRC=papers, CANBOAT_EDITED="1", CARGO_TARGET_DIR=os.path.join(slot, "target"))
    try:
        built = run(["cargo", "build", "--profile", "edited", "--offline", "--quiet", "--bin", "oracle"], cwd=HERE, env=env)
        if built.returncode != 0:
            return "does not compile"
        try:
            told = run([genuine, "compare", os.path.join(slot, os.path.basename(file)), "quick", "1", "--first"], timeout=240)
        except subprocess.TimeoutExpired:
            return "found: does not end"
        if told.returncode == 0:
            return "not found"
        part = re.search(r"DIFFERENT: (\S+)", told.stdout)
        return "found by " + (part.group(1) if part else "a crash")
    finally:
        shutil.copyfile(os.path.join(PAPERS, ENGINE, file), path)


def make_slot(folder, i):
    slot = os.path.join(folder, str(i))
    shutil.copytree(PAPERS, os.path.join(slot, "papers"))
    run(["chmod", "-R", "u+w", slot])
    for file, names in PROGRAMS.items():
        folder = os.path.join(slot, os.path.basename(file))
        os.mkdir(folder)
        for name in names:
            program = os.path.join(folder, name)
            with open(program, "w") as f:
                f.write(f"#!/bin/sh\nexec {slot}/target/edited/oracle run 2>/dev/null\n")
            os.chmod(program, 0o755)
    return slot


def main():
    words = argparse.ArgumentParser()
    words.add_argument("--jobs", type=int, default=2)
    words.add_argument("--only", default="")
    words = words.parse_args()
    env = dict(os.environ, CANBOAT_SRC=PAPERS)
    if run(["cargo", "build", "--release", "--offline", "--quiet"], cwd=HERE, env=env).returncode != 0:
        sys.exit("the oracle does not build")
    todo = []
    for file in PROGRAMS:
        text = open(os.path.join(PAPERS, ENGINE, file)).read()
        todo += [(file, number, new) for number, new in changes(file, text)]
    todo = [t for t in todo if words.only in f"{t[0]}:{t[1] + 1}"]
    tally = {}
    with tempfile.TemporaryDirectory() as folder:
        genuine = os.path.join(folder, "oracle")
        shutil.copy(os.path.join(HERE, "target/release/oracle"), genuine)
        free = [make_slot(folder, i) for i in range(words.jobs)]

        def one(change):
            slot = free.pop()
            try:
                return change, attempt(slot, genuine, *change)
            finally:
                free.append(slot)

        with concurrent.futures.ThreadPoolExecutor(words.jobs) as pool:
            for (file, number, new), result in pool.map(one, todo):
                kind = result.split(" by ")[0].split(":")[0]
                tally[kind] = tally.get(kind, 0) + 1
                print(f"{result:24} {file}:{number + 1}: {new.strip() or '(left out)'}", flush=True)
    print(", ".join(f"{n} {kind}" for kind, n in sorted(tally.items())), "of", len(todo))


if __name__ == "__main__":
    main()
