"""Arguments, what is told for them and where, and statuses. A text that ends with two dots tells how the output begins."""

import os
import re
import socket
import stat
import subprocess
import tempfile
import time
from dataclasses import dataclass
from functools import partial

from .outcomes import Failure, Test, expect_same, expect_status, expect_text, shown
from .programs import run
from .served import Console, Served, listen_to, wait_for, write_private

ABOUT = b"A verified global name server\n.."
ABOUT_SERVE = b"Runs nodes and serves consoles over the network\n.."
ABOUT_SCRIPT = b"Plays a script from standard input and prints its answers\n.."
ABOUT_NODE = b"Runs one node by the lines of standard input, and prints what it sends and answers\n.."
VERSION = b"cluster_main 0.1.0\n"
ERROR = b"error: .."
COOKIE = b"0123456789abcdef"

# What is read only where a script is played, or a node is run.
INPUT = b"cluster a\nspawn a\n"


@dataclass(frozen=True)
class Call:
    """The arguments of a call, what it prints, what it tells on standard error, and its status."""

    name: str
    words: list
    status: int
    output: bytes = b""
    errors: bytes = b""


def shows(name, line, output):
    return Call(name, line.split(), 0, output)


def refuses(name, *words):
    return Call(name, list(words), 2, errors=ERROR)


def refuses_options(name, options):
    return refuses(name, "serve", *options.split())


def refuses_lists(name, word, *lists):
    words = ["serve", "--listen", "127.0.0.1:0", *lists]
    return Call(name, words, 2, errors=b"error %s\n" % word.encode())


def refuses_node(name, word, node, nodes):
    return Call(name, ["node", node, nodes], 2, errors=b"error %s\n" % word.encode())


def refuses_staying(name, line, options):
    return Call(name, ["serve", "--nodes", "a", *options.split()], 2, errors=f"error: {line}\n".encode())


def cannot_listen(name, address):
    words = ["serve", "--listen", address, "--nodes", "a"]
    return Call(name, words, 1, errors=f"error: --listen {address}: ..".encode())


CALLS = [
    shows("help", "--help", ABOUT),
    shows("short_help", "-h", ABOUT),
    shows("help_as_a_word", "help", ABOUT),
    shows("help_of_serve", "serve --help", ABOUT_SERVE),
    shows("short_help_of_serve", "serve -h", ABOUT_SERVE),
    shows("help_of_serve_as_a_word", "help serve", ABOUT_SERVE),
    shows("help_of_script", "script --help", ABOUT_SCRIPT),
    shows("help_of_node", "node --help", ABOUT_NODE),
    shows("short_help_of_node", "node -h", ABOUT_NODE),
    shows("help_of_node_as_a_word", "help node", ABOUT_NODE),
    shows("version", "--version", VERSION),
    shows("short_version", "-V", VERSION),
    Call("script", ["script"], 0, b"a.1\n"),
    Call("node", ["node", "a", "b,a"], 0, b"error bad_line\nerror bad_line\n"),
    Call("later_node", ["node", "a/2", "b,a"], 0, b"error bad_line\nerror bad_line\n"),
    refuses("no_arguments"),
    refuses("empty_argument", ""),
    refuses("unknown_word", "nonsense"),
    refuses("unknown_option", "--bogus"),
    refuses("word_behind_script", "script", "more"),
    refuses("node_without_arguments", "node"),
    refuses("node_without_a_list", "node", "a"),
    refuses("word_behind_a_node", "node", "a", "a,b", "c"),
    refuses("option_of_a_node", "node", "a", "a,b", "--stay"),
    refuses("node_that_is_no_text", "node", b"\xff", "a"),
    refuses("argument_that_is_no_text", b"\xff"),
    refuses("argument_that_is_no_text_behind_script", "script", b"\xc3\x28"),
    refuses("argument_of_5000_bytes", "script", "x" * 5000),
    refuses_options("serve_without_options", ""),
    refuses_options("serve_without_nodes", "--listen 127.0.0.1:0"),
    refuses_options("serve_without_an_address", "--nodes a"),
    refuses_options("serve_with_an_unknown_option", "--listen 127.0.0.1:0 --nodes a --bogus b"),
    refuses_options("option_without_its_value", "--listen 127.0.0.1:0 --nodes"),
    refuses_options("option_twice", "--listen 127.0.0.1:0 --nodes a --nodes b"),
    refuses_options("no_consoles", "--listen 127.0.0.1:0 --nodes a --consoles 0"),
    refuses_staying("65_consoles", "--consoles: more than 64 go with --stay alone", "--listen 127.0.0.1:0 --consoles 65"),
    refuses_staying("socket_before_65_consoles", "--listen unix:PATH: goes with --stay alone", "--listen unix:s --consoles 65"),
    refuses_options("1025_consoles", "--listen 127.0.0.1:0 --nodes a --consoles 1025"),
    refuses_options("65600_consoles", "--listen 127.0.0.1:0 --nodes a --consoles 65600"),
    refuses_options("consoles_that_are_no_number", "--listen 127.0.0.1:0 --nodes a --consoles x"),
    refuses_options("consoles_below_zero", "--listen 127.0.0.1:0 --nodes a --consoles=-1"),
    refuses_options("stay_alone", "--stay"),
    refuses_staying("cookie_file_without_stay", "--cookie-file: goes with --stay alone", "--listen 127.0.0.1:0 --cookie-file c"),
    refuses_staying("idle_without_stay", "--idle: goes with --stay alone", "--listen 127.0.0.1:0 --idle 5"),
    refuses_staying("socket_without_stay", "--listen unix:PATH: goes with --stay alone", "--listen unix:s"),
    refuses_staying("stay_over_tcp_without_a_cookie_file", "--cookie-file: wanted with --stay over TCP; a socket is --listen unix:PATH", "--listen 127.0.0.1:0 --stay"),
    refuses_staying("cookie_file_before_other_options", "--cookie-file: goes with --stay alone", "--listen unix:s --idle 9 --cookie-file c"),
    refuses_staying("idle_before_a_socket", "--idle: goes with --stay alone", "--listen unix:s --idle 9"),
    refuses_staying("cookie_file_that_is_wanted_beside_idle", "--cookie-file: wanted with --stay over TCP; a socket is --listen unix:PATH", "--listen 127.0.0.1:0 --stay --idle 9"),
    Call("list_before_options_that_do_not_fit", "serve --listen unix:s --nodes a,,b --idle 9".split(), 2, errors=b"error empty\n"),
    Call("same_node_before_options_that_do_not_fit", "serve --listen x --nodes a --lone a --stay".split(), 2, errors=b"error same_node\n"),
    refuses_options("idle_of_no_time", "--listen unix:s --nodes a --stay --idle 0"),
    refuses_options("idle_of_more_than_a_year", "--listen unix:s --nodes a --stay --idle 31536001"),
    refuses_options("idle_that_is_no_number", "--listen unix:s --nodes a --stay --idle x"),
    refuses_options("cookie_file_without_its_value", "--listen unix:s --nodes a --stay --cookie-file"),
    refuses_options("cookie_file_of_a_script", "script --cookie-file c"),
    refuses_options("stay_twice", "--listen 127.0.0.1:0 --nodes a --stay --stay"),
    refuses_options("stay_with_a_value", "--listen 127.0.0.1:0 --nodes a --stay=yes"),
    refuses_options("stay_with_a_word", "--listen 127.0.0.1:0 --nodes a --stay yes"),
    refuses_options("1025_consoles_at_once", "--listen unix:s --nodes a --stay --consoles 1025"),
    refuses("stay_of_a_script", "script", "--stay"),
    refuses_lists("list_with_an_empty_name", "empty", "--nodes", "a,,b"),
    refuses_lists("empty_list", "empty", "--nodes="),
    refuses_lists("empty_lone_list", "empty", "--nodes", "a", "--lone="),
    refuses_lists("list_with_a_long_name", "too_long", "--nodes", "n" * 65),
    refuses_lists("list_with_a_bad_byte", "bad_byte", "--nodes", "a,b!"),
    refuses_lists("list_with_a_blank", "bad_byte", "--nodes", "a, b"),
    refuses_lists("lone_list_with_a_bad_byte", "bad_byte", "--nodes", "a", "--lone", "b!"),
    refuses_lists("first_list_counts_first", "empty", "--nodes", "a,,b", "--lone", "!"),
    refuses_lists("lone_list_counts_before_both", "bad_byte", "--nodes", "a", "--lone", "a,!"),
    refuses_lists("nine_nodes", "too_many_nodes", "--nodes", "a,b,c,d,e,f,g,h,i"),
    refuses_lists("nine_nodes_in_both_lists", "too_many_nodes", "--nodes", "a,b,c,d,e", "--lone", "f,g,h,i"),
    refuses_lists("node_in_both_lists", "same_node", "--nodes", "a,b", "--lone", "b"),
    refuses_lists("same_node_before_too_many", "same_node", "--nodes", "a,b,c,d,e,f,g,h", "--lone", "h,i"),
    refuses_node("node_that_is_not_of_its_list", "no_such_node", "c", "a,b"),
    refuses_node("node_whose_name_begins_one_of_its_list", "no_such_node", "a", "ab,b"),
    refuses_node("node_with_an_empty_name", "empty", "", "a,b"),
    refuses_node("node_with_a_long_name", "too_long", "n" * 65, "a,b"),
    refuses_node("node_with_a_bad_byte", "bad_byte", "a!", "a,b"),
    refuses_node("node_with_a_bad_creation", "bad_creation", "a/1", "a,b"),
    refuses_node("later_node_that_is_not_of_its_list", "no_such_node", "c/2", "a,b"),
    refuses_node("empty_list_of_a_node", "empty", "a", ""),
    refuses_node("list_of_a_node_with_an_empty_name", "empty", "a", "a,,b"),
    refuses_node("list_of_a_node_with_a_bad_byte", "bad_byte", "a", "a,b!"),
    refuses_node("nine_nodes_of_a_node", "too_many_nodes", "a", "a,b,c,d,e,f,g,h,i"),
    refuses_node("node_counts_before_its_list", "bad_byte", "a!", "a,,b"),
    refuses_node("list_counts_before_what_it_has", "too_many_nodes", "z", "a,b,c,d,e,f,g,h,i"),
    cannot_listen("address_without_a_port", "127.0.0.1"),
    cannot_listen("address_that_is_none", "nowhere"),
]


def check(program, call):
    """Makes a call. Only a script and a node read their input, where they are run."""
    with tempfile.TemporaryFile(buffering=0) as given:
        given.write(INPUT)
        given.seek(0)
        ran = program.run(call.words, stdin=given)
        is_read = given.tell() > 0
    expect_text("standard output", call.output, ran.stdout)
    expect_text("standard error", call.errors, ran.stderr)
    expect_status(call.status, ran.returncode)
    if is_read and call.name not in ["script", "node", "later_node"]:
        raise Failure("it read its input")


# Words that are refused, and a part of what is told of them.
REFUSED = [
    ("serve", "--listen <ADDR>"),
    ("serve --listen x", "--nodes <LIST>"),
    ("serve --listen x --nodes a --consoles 1025", "1..=1024"),
    ("serve --listen x --nodes a --consoles 0", "1..=1024"),
    ("serve --listen unix:x --nodes a --stay --idle 0", "1..=31536000"),
    ("serve --listen unix:x --nodes a --stay --idle 31536001", "1..=31536000"),
    ("node", "<NODE>"),
    ("node", "<LIST>"),
    ("node a", "<LIST>"),
]


def what_is_wanted_is_told(program):
    for words, part in REFUSED:
        told = program.run(words.split()).stderr
        if part.encode() not in told:
            raise Failure(f"`{words}`: {part} isn't told of: {shown(told)}")


def help_tells_of_each_option(program):
    told = program.run(["--help"]).stdout
    if b"Runs nodes and serves consoles over the network" not in told:
        raise Failure("serve isn't told of")
    if b"Runs one node by the lines of standard input" not in told:
        raise Failure("node isn't told of")
    told = program.run(["serve", "--help"]).stdout
    for address in [b"127.0.0.1:4370", b"unix:/run/yaltzumin/socket"]:
        if address not in told:
            raise Failure(f"{address.decode()} isn't told of")
    options = [b"--listen <ADDR>", b"--nodes <LIST>", b"--lone <LIST>", b"--consoles <N>"]
    for option in [*options, b"--stay", b"--cookie-file <FILE>", b"--idle <SECONDS>"]:
        if option not in told:
            raise Failure(f"{option.decode()} isn't told of")
    told = program.run(["node", "--help"]).stdout
    for argument in [b"<NODE>", b"<LIST>"]:
        if argument not in told:
            raise Failure(f"{argument.decode()} isn't told of")


def address_in_use(program):
    with socket.socket() as taken:
        taken.bind(("127.0.0.1", 0))
        taken.listen()
        check(program, cannot_listen("", f"127.0.0.1:{taken.getsockname()[1]}"))


def port_zero_of_a_server_that_stays(program):
    with tempfile.TemporaryDirectory() as folder:
        write_private(f"{folder}/cookie", COOKIE + b"\n")
        options = ["--stay", "--cookie-file", f"{folder}/cookie"]
        port_zero_is_told_as_the_one_that_listens(program, *options, line=b"attach a " + COOKIE)


def serves_at(program, words, status, line):
    """The program doesn't begin to serve: it tells this line on standard error."""
    ran = program.run(["serve", "--nodes", "a", "--stay", *words])
    expect_same("standard output", b"", ran.stdout)
    expect_text("standard error", line, ran.stderr)
    expect_status(status, ran.returncode)


def cookie_files_that_are_refused(program):
    """Each is refused before anything listens."""
    with tempfile.TemporaryDirectory() as folder:
        name = f"{folder}/cookie"

        def refused(line):
            options = ["--listen", "127.0.0.1:0", "--cookie-file", name]
            serves_at(program, options, 1, f"error: --cookie-file {name}: {line}".encode())

        refused("..")
        os.mkdir(name)
        refused("not a file\n")
        os.rmdir(name)
        for text in [b"", b"\n", b"fifteen-letters\n", b"with a space in it\n", b"x" * 256, b"sixteen-letters\xff\n"]:
            write_private(name, text)
            refused("no cookie in its first line\n")
            os.remove(name)
        for mode in [0o604, 0o640, 0o620]:
            write_private(name, COOKIE)
            os.chmod(name, mode)
            refused("others may read it\n")
            os.remove(name)


def sockets_that_are_refused(program):
    """What stands at the path stays there."""
    with tempfile.TemporaryDirectory() as folder:

        def refused(path, line):
            serves_at(program, ["--listen", f"unix:{path}"], 1, f"error: --listen unix:{path}: {line}".encode())

        refused(f"{folder}/" + "x" * (101 - len(folder) - 1), "too long\n")
        refused(f"{folder}/no/socket", "..")
        write_private(f"{folder}/file", b"kept")
        refused(f"{folder}/file", "not a socket\n")
        with open(f"{folder}/file", "rb") as file:
            expect_same("the file", b"kept", file.read())
        with socket.socket(socket.AF_UNIX) as taken:
            taken.bind(f"{folder}/taken")
            taken.listen()
            refused(f"{folder}/taken", "in use\n")
        os.makedirs(f"{folder}/socket.new/kept")
        refused(f"{folder}/socket", "PATH.new is in the way\n")
        expect_same("the folder", b"kept", " ".join(os.listdir(f"{folder}/socket.new")).encode())


def socket_of_its_owner(program):
    """A socket that nobody listens at any more is taken over, and is its owner's alone."""
    with tempfile.TemporaryDirectory() as folder:
        path = f"{folder}/socket"
        with socket.socket(socket.AF_UNIX) as left:
            left.bind(path)
        words = [program.path, "serve", "--stay", "--listen", f"unix:{path}", "--nodes", "a"]
        with subprocess.Popen(words, stdin=subprocess.DEVNULL, stdout=subprocess.PIPE, stderr=subprocess.DEVNULL) as served:
            try:
                wait_for(served.stdout, time.monotonic() + program.seconds, "line of the program")
                expect_same("standard output", f"listening unix:{path}\n".encode(), served.stdout.readline())
                mode = os.stat(path).st_mode
                if not stat.S_ISSOCK(mode) or stat.S_IMODE(mode) != 0o600:
                    raise Failure(f"expected a socket of mode 600, got {mode:o}")
                expect_same("the folder", b"socket", " ".join(os.listdir(folder)).encode())
            finally:
                served.kill()


def port_zero_is_told_as_the_one_that_listens(program, *options, line=b"attach a"):
    """The line tells the port that the system chose: a connection is taken there."""
    words = [program.path, "serve", "--listen", "127.0.0.1:0", "--nodes", "a", *options]
    with subprocess.Popen(words, stdin=subprocess.DEVNULL, stdout=subprocess.PIPE, stderr=subprocess.DEVNULL) as served:
        try:
            wait_for(served.stdout, time.monotonic() + program.seconds, "line of the program")
            first = served.stdout.readline()
            told = re.fullmatch(rb"listening 127\.0\.0\.1:([1-9][0-9]*)\n", first)
            if not told:
                raise Failure(f"expected `listening 127.0.0.1:` with a port, got {shown(first)}")
            with socket.create_connection(("127.0.0.1", int(told[1])), timeout=program.seconds) as console:
                console.sendall(line + b"\n")
                expect_same("a console's answer", b"ok\n", console.recv(16))
        finally:
            served.kill()


def sixty_four_consoles(program):
    """As many as can be: each is given a seat."""
    with Served(program, ["--nodes", "a", "--consoles", "64"]) as served:
        consoles = [Console(served) for _ in range(64)]
        for it in consoles:
            it.say(b"attach a\nwhereis x\nquit\n")
        for it in consoles:
            listen_to([it], lambda: it.has_ended, program.seconds)
            expect_same("a console's answers", b"ok\nundefined\nok\n", it.heard)
        served.expect_closed()


def sixty_four_consoles_that_stay(program):
    """As many are served at once by a server that stays, where it isn't told how many; one more is told so."""
    with Served(program, ["--stay", "--nodes", "a"]) as served:
        consoles = [Console(served) for _ in range(64)]
        for it in consoles:
            it.say(b"attach a\n")
            listen_to([it], lambda: it.next_line() is not None, program.seconds)
            expect_same("a console's answer", b"ok\n", it.heard)
        late = Console(served)
        listen_to([late], lambda: late.has_ended, program.seconds)
        expect_same("the answer to one too many", b"error too_many_consoles\n", late.heard)
        consoles[0].say(b"shutdown\n")
        served.expect_closed(most=0)


def last_line_that_nobody_reads(program):
    with Served(program, ["--nodes", "a", "--consoles", "1"]) as served:
        served.process.stdout.close()
        Console(served).end_input()
        expect_status(1, served.process.wait(program.seconds))
        expect_same("standard error", b"", served.process.stderr.read())


def fails_silently(program, words, **how):
    """A fault tells nothing anywhere, and the status is 1."""
    ran = program.run(words, **how)
    expect_same("standard output", b"", ran.stdout or b"")
    expect_same("standard error", b"", ran.stderr)
    expect_status(1, ran.returncode)


def input_that_cannot_be_read(program):
    folder = os.open("/", os.O_RDONLY)
    try:
        for words in [["script"], ["node", "a", "a"]]:
            fails_silently(program, words, stdin=folder)
    finally:
        os.close(folder)


def output_that_is_full(program, words):
    with open("/dev/full", "wb") as full:
        fails_silently(program, words, input=INPUT, stdout=full)


def errors_that_are_full(program, words):
    """What can't be told of wrong words changes no status."""
    with open("/dev/full", "wb") as full:
        ran = program.run(words, stderr=full)
    expect_same("standard output", b"", ran.stdout)
    expect_status(2, ran.returncode)


def name_that_is_no_text(program):
    """By whatever name the program is called."""
    ran = run([b"\xff", "script"], program.seconds, executable=program.path, input=INPUT)
    expect_same("standard output", b"a.1\n", ran.stdout)
    expect_same("standard error", b"", ran.stderr)
    expect_status(0, ran.returncode)


def output_that_nobody_reads(program):
    reader, writer = os.pipe()
    os.close(reader)
    try:
        for words in [["script"], ["node", "a", "a"]]:
            fails_silently(program, words, input=INPUT, stdout=writer)
    finally:
        os.close(writer)


def answers_before_it_waits(program):
    """What a line prints comes before the next line is given."""
    pipes = {"stdin": subprocess.PIPE, "stdout": subprocess.PIPE}
    with subprocess.Popen([program.path, "script"], bufsize=0, **pipes) as typed:
        try:
            typed.stdin.write(b"cluster a\nspa")
            for text, answer in [(b"wn a\n", b"a.1\n"), (b"spawn a\nbogus", b"a.2\n"), (b" \n", b"error bad_line\n")]:
                typed.stdin.write(text)
                wait_for(typed.stdout, time.monotonic() + program.seconds, "answer")
                expect_same("output", answer, typed.stdout.readline())
            typed.stdin.close()
            expect_same("output", b"", typed.stdout.read())
            expect_status(1, typed.wait(program.seconds))
        finally:
            typed.kill()


def tests(program, root):
    for call in CALLS:
        yield Test(f"arguments/{call.name}", partial(check, program, call))
    for it in [
        help_tells_of_each_option,
        what_is_wanted_is_told,
        address_in_use,
        port_zero_is_told_as_the_one_that_listens,
        port_zero_of_a_server_that_stays,
        cookie_files_that_are_refused,
        sockets_that_are_refused,
        socket_of_its_owner,
        sixty_four_consoles,
        sixty_four_consoles_that_stay,
        last_line_that_nobody_reads,
        input_that_cannot_be_read,
        output_that_nobody_reads,
        answers_before_it_waits,
        name_that_is_no_text,
    ]:
        yield Test(f"arguments/{it.__name__}", partial(it, program))
    serve = ["serve", "--listen", "127.0.0.1:0", "--nodes", "a"]
    for name, words in [("script", ["script"]), ("node", ["node", "a", "a"]), ("help", ["--help"]), ("serve", serve)]:
        yield Test(f"arguments/output_that_is_full_of_{name}", partial(output_that_is_full, program, words))
    wrong_words = [("an_unknown_word", ["nonsense"]), ("no_text", [b"\xff"]), ("a_bad_list", [*serve[:-1], "a,,b"])]
    for name, words in [*wrong_words, ("a_stranger", ["node", "c", "a,b"])]:
        yield Test(f"arguments/errors_that_are_full_of_{name}", partial(errors_that_are_full, program, words))
