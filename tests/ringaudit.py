#!/usr/bin/env python3
"""ringaudit.py: tests the command ringaudit: what it prints, where, and its status.

Most calls are of the repository's own command, with the program proved before. A first run, proofs and programs that
fail, and many file names are tried on a copy of the command beside a stand-in for rt. The last line is "N passed, M
failed".
"""
import os
import pty
import shutil
import socket
import subprocess
import sys
import tempfile
import time
import tty
from pathlib import Path

TOP = Path(__file__).resolve().parent.parent
COMMAND = TOP / "ringaudit"
PROGRAM = TOP / "crates/ringaudit/out/ringaudit"
SAMPLES = TOP / "samples"
WHOLE = SAMPLES / "whole.log"
WHOLE_TEXT = (SAMPLES / "whole.txt").read_text()
ENTRY = (SAMPLES / "torn.log").read_bytes()[:52]  # a log of one entry
OVER = "input over 65536 bytes\n"
UNCHANGED = "echo 'rt: nothing has changed since the last proved build'"

scratch = Path(tempfile.mkdtemp())
scratch.chmod(0o755)  # root runs one test as nobody
temporary = scratch / "tmp"
temporary.mkdir()
temporary.chmod(0o777)
tests = []


def test(function):
    tests.append(function)
    return function


def environment(path=os.environ["PATH"]):
    return {**os.environ, "TMPDIR": str(temporary), "PATH": str(path)}


def call(*arguments, command=COMMAND, redirected="", path=os.environ["PATH"], **options):
    """Status, standard output and standard error of a call, with the shell's redirections."""
    words = ["sh", "-c", 'exec "$0" "$@" ' + redirected, command, *arguments]
    options = {"stdin": subprocess.DEVNULL, "timeout": 30, **options}
    if "input" in options:
        del options["stdin"]
    ended = subprocess.run(words, stdout=subprocess.PIPE, stderr=subprocess.PIPE, env=environment(path), **options)
    return ended.returncode, ended.stdout.decode(), ended.stderr.decode()


def started(*arguments, command=COMMAND, path=os.environ["PATH"]):
    """A call that is under way, with a pipe for each of its streams."""
    pipes = {stream: subprocess.PIPE for stream in ["stdin", "stdout", "stderr"]}
    return subprocess.Popen([command, *arguments], env=environment(path), **pipes)


def expect(got, status, out):
    """That much, and a word on standard error where nothing is on standard output, and only there."""
    assert got[:2] == (status, out), got
    assert bool(got[2]) == (out == ""), got


def script(path, text):
    path.parent.mkdir(parents=True, exist_ok=True)
    path.write_text("#!/bin/sh\n" + text + "\n")
    path.chmod(0o755)


def stand_in(rt, program=None):
    """A copy of the command beside that rt, with the repository's program or with another: what calls it."""
    folder = Path(tempfile.mkdtemp(dir=scratch))
    folder.chmod(0o755)
    shutil.copy(COMMAND, folder)
    script(folder / "tools/rt", rt)
    (folder / "crates/ringaudit/out").mkdir(parents=True)
    if program is None:
        shutil.copy(PROGRAM, folder / "crates/ringaudit/out")
    elif program:
        script(folder / "crates/ringaudit/out/ringaudit", program)
    return {"command": folder / "ringaudit", "path": "%s:%s" % (folder / "tools", os.environ["PATH"])}


# ---- verdicts


@test
def each_sample_gets_its_text_and_status():
    for name, status in [("whole", 0), ("torn", 1), ("bent", 1)]:
        expect(call(SAMPLES / (name + ".log")), status, (SAMPLES / (name + ".txt")).read_text())


@test
def no_input_is_whole():
    expect(call(), 0, "entries 0\nbytes 0 of 0\nstate whole\n")


@test
def exactly_65536_bytes_are_audited_and_one_more_is_too_much():
    expect(call(input=bytes(65536)), 1, "entries 0\nbytes 0 of 65536\nstate torn\n")
    expect(call(input=bytes(65537)), 2, OVER)


@test
def input_that_never_ends_is_too_much():
    expect(call("/dev/zero"), 2, OVER)
    expect(call(redirected="</dev/zero"), 2, OVER)


@test
def no_more_than_65537_bytes_are_read():
    with tempfile.TemporaryFile(dir=scratch) as file:
        file.write(bytes(70000))
        file.seek(0)
        expect(call(stdin=file), 2, OVER)
        assert os.lseek(file.fileno(), 0, os.SEEK_CUR) == 65537


@test
def a_pipe_may_give_its_bytes_piece_by_piece():
    pieces = "{ head -c 100; sleep 0.3; head -c 1; sleep 0.3; cat; } <%s |" % WHOLE
    ended = subprocess.run(pieces + str(COMMAND), shell=True, stdout=subprocess.PIPE, timeout=30, env=environment())
    assert (ended.returncode, ended.stdout.decode()) == (0, WHOLE_TEXT), ended


# ---- what cannot be read or written


@test
def what_is_no_file_is_no_log():
    for name in [SAMPLES, scratch / "missing", ""]:
        expect(call(name), 2, "")
    expect(call(redirected="<%s" % SAMPLES), 2, "")


@test
def a_file_that_may_not_be_read_is_no_log():
    file = scratch / "secret"
    shutil.copy(WHOLE, file)
    how = {**stand_in(UNCHANGED), "cwd": scratch, **({"user": 65534} if os.geteuid() == 0 else {})}
    file.chmod(0o644)
    expect(call(file, **how), 0, WHOLE_TEXT)
    file.chmod(0)
    expect(call(file, **how), 2, "")


@test
def a_closed_standard_input_is_no_log():
    expect(call(redirected="<&-"), 2, "")
    expect(call(COMMAND, command="bash", redirected="<&-"), 2, "")  # sh is bash on some machines
    expect(call(WHOLE, redirected="<&-"), 0, WHOLE_TEXT)


@test
def a_read_that_fails_behind_a_whole_entry_gives_no_verdict():
    expect(call(input=ENTRY), 0, "entries 1\nbytes 52 of 52\nstate whole\n")
    master, slave = pty.openpty()
    tty.setraw(slave)
    os.write(slave, ENTRY)
    os.close(slave)  # behind the 52 bytes a read of the master now fails
    expect(call(stdin=master), 2, "")
    os.close(master)


@test
def a_report_that_cannot_be_written_has_status_2():
    for closed in [">/dev/full", ">&-"]:
        for words in [WHOLE, SAMPLES / "torn.log", "--help"]:
            expect(call(words, redirected=closed), 2, "")


@test
def the_program_writes_its_report_at_once():
    for sample in ["whole", "torn", "bent"]:
        ours, its = socket.socketpair(socket.AF_UNIX, socket.SOCK_SEQPACKET)  # keeps each write apart
        with ours, its, open(SAMPLES / (sample + ".log"), "rb") as log:
            subprocess.run([PROGRAM], stdin=log, stdout=its, timeout=30, check=True)
            its.close()
            assert ours.recv(1000).decode() == (SAMPLES / (sample + ".txt")).read_text()
            assert ours.recv(1000) == b""


# ---- calls


@test
def help_goes_to_standard_output():
    for option in ["-h", "--help"]:
        status, out, err = call(option)
        assert (status, err) == (0, "") and out.startswith("usage: ringaudit [FILE]\n"), (status, out, err)
        for word in ["status 0", "1  state torn", "2  no verdict", "damaged"]:
            assert word in out, out


@test
def a_wrong_call_gets_the_usage():
    options = [["-x"], ["--helper"], ["-x", WHOLE]]
    for words in [*options, ["--", WHOLE, WHOLE], [WHOLE, WHOLE], [WHOLE, "-"], [WHOLE, "--"], ["-", "-"]]:
        got = call(*words)
        expect(got, 2, "")
        assert "usage: ringaudit [FILE]\n" in got[2], got


@test
def a_dash_is_standard_input():
    for words in [[], ["-"], ["--"], ["--", "-"]]:
        expect(call(*words, input=WHOLE.read_bytes()), 0, WHOLE_TEXT)


@test
def any_file_name_can_be_given():
    folder = scratch / "odd names"
    folder.mkdir()
    command = stand_in(UNCHANGED)
    for name in ["two words", " * ", "line\nline", "end\n", "\\n", "-", "-x", "--", "'", '"$0"']:
        shutil.copy(WHOLE, folder / name)
        expect(call(folder / name, **command), 0, WHOLE_TEXT)
        expect(call("./" + name, cwd=folder, **command), 0, WHOLE_TEXT)
    for words in [["--", "-x"], ["--", "--"], ["two words"]]:
        expect(call(*words, cwd=folder, **command), 0, WHOLE_TEXT)


@test
def the_command_can_be_a_link():
    folder = scratch / "links"
    (folder / "below").mkdir(parents=True)
    (folder / "direct").symlink_to(COMMAND)
    (folder / "below/relative").symlink_to("../direct")
    (folder / "audit").symlink_to("below/relative")
    for name in ["direct", "below/relative", "audit"]:
        expect(call(WHOLE, command=folder / name, cwd="/"), 0, WHOLE_TEXT)
    expect(call(WHOLE, command="./audit", cwd=folder), 0, WHOLE_TEXT)
    for place in [folder, TOP]:
        name = "audit" if place == folder else "ringaudit"
        expect(call("whole.log", command=name, cwd=SAMPLES, path="%s:%s" % (place, os.environ["PATH"])), 0, WHOLE_TEXT)


# ---- proof and program


@test
def a_first_run_tells_each_crate_as_it_is_proved():
    rt = """echo 'fn sha256::sha256: proved'
        echo 'crate sha256: modules loaded=0 checked=1034'
        echo 'logic=proved functions=41'
        for turn in $(seq 100); do [ -e go ] || sleep 0.1; done
        [ -e go ] || exit 1
        echo 'rt: slate: begins with what a check kept'
        cp '%s' out/
        echo 'library sha256: modules loaded=851 checked=0'
        echo 'crate ringaudit: modules loaded=0 checked=20'
        echo 'logic=proved functions=1'
        echo 'rt: running out/ringaudit' >&2
        out/ringaudit""" % PROGRAM
    first = stand_in(rt, program="")
    run = started(WHOLE, **first)
    said = [run.stderr.readline().decode() for _ in range(2)]
    (first["command"].parent / "crates/ringaudit/go").touch()
    out, err = run.communicate(timeout=30)
    assert (run.returncode, out.decode()) == (0, WHOLE_TEXT), (run.returncode, out)
    assert "first run" in said[0] and said[1] == "ringaudit: crate sha256 proved\n", said
    assert err.decode() == "ringaudit: crate ringaudit proved\n", err


@test
def rt_does_not_read_the_log():
    expect(call(**stand_in("cat >/dev/null\n" + UNCHANGED), input=ENTRY), 0, "entries 1\nbytes 52 of 52\nstate whole\n")


@test
def runs_at_once_wait_for_each_other():
    command = stand_in("mkdir busy || exit 1\nsleep 0.2\nrmdir busy\n" + UNCHANGED)
    for run in [started(WHOLE, **command) for _ in range(4)]:
        out, err = run.communicate(timeout=30)
        expect((run.returncode, out.decode(), err.decode()), 0, WHOLE_TEXT)


@test
def without_a_proof_no_program_is_run():
    for ending in ["exit 1", "exit 2", "kill -9 $$"]:
        got = call(WHOLE, **stand_in("echo 'rt: sha256 NOT PROVED'\necho 'rt: a reason' >&2\n" + ending))
        expect(got, 2, "")
        assert "rt: sha256 NOT PROVED\n" in got[2] and "rt: a reason\n" in got[2], got


@test
def without_rt_no_program_is_run():
    tools = scratch / "tools"
    tools.mkdir()
    for name in ["sh", "cat", "dirname", "flock", "head", "readlink", "tr"]:
        (tools / name).symlink_to(shutil.which(name))
    expect(call(WHOLE, **{**stand_in(""), "path": tools}), 2, "")


@test
def what_is_no_report_is_not_passed_on():
    lines = "entries 8\nbytes 1352 of 1352\nstate whole"
    odd = ["", "state whole", "\n" + lines, lines + "some", lines + "\nstate torn"]
    odd += [lines.replace("8", "eight"), lines.replace(" of ", " "), "input over 65536 bytes\n" + lines]
    programs = ["cat >/dev/null\ncat <<'EOF'\n%s\nEOF" % text for text in odd]
    good = "cat >/dev/null\ncat <<'EOF'\n%s\nEOF\n" % lines
    expect(call(WHOLE, **stand_in(UNCHANGED, good)), 0, WHOLE_TEXT)
    for program in [*programs, good + "exit 1", good + "kill -9 $$"]:
        expect(call(WHOLE, **stand_in(UNCHANGED, program)), 2, "")


@test
def a_program_that_is_not_there_is_no_verdict():
    expect(call(WHOLE, **stand_in(UNCHANGED, program="")), 2, "")


# ---- what a run leaves


@test
def a_run_that_is_ended_by_a_signal_ends_at_once():
    run = started()
    time.sleep(1)
    run.terminate()
    assert run.wait(timeout=5) != 0
    assert run.communicate()[0] == b""


@test
def no_run_leaves_a_file():  # the last test: of all runs above
    assert list(temporary.iterdir()) == []


def main():
    failed = 0
    for function in tests:
        try:
            function()
        except (AssertionError, OSError, subprocess.TimeoutExpired) as error:
            failed += 1
            print("%s: %s" % (function.__name__.replace("_", " "), error))
    shutil.rmtree(scratch)
    print("%d passed, %d failed" % (len(tests) - failed, failed))
    sys.exit(failed > 0)


main()
