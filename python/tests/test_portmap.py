"""scanvolt-portmap with a port mapper that is a thread of these tests."""

from __future__ import annotations

import contextlib
import os
import pathlib
import signal
import socket
import subprocess
import sys
import threading
import unittest
from collections.abc import Iterator

from scanvolt import portmap
from scanvolt.vxi11 import Reader, Records, calls, encode_reply, read_call, words

PACKAGE = pathlib.Path(portmap.__file__).resolve().parents[1]
ENVIRONMENT = dict(os.environ, PYTHONPATH=str(PACKAGE), PYTHONDONTWRITEBYTECODE="1")
PATIENCE = 20  # seconds
# If these tests were started in the background, signals may still be ignored.
COMMAND = """import signal, sys
from scanvolt import portmap
for number in portmap.ENDING:
    signal.signal(number, signal.SIG_DFL)
sys.exit(portmap.main())
"""


class Mapper(threading.Thread):
    """A port mapper with some programs registered. It refuses to register those in `refuses`."""

    def __init__(self, **known: int) -> None:
        super().__init__(daemon=True)
        self.programs: dict[int, int] = {getattr(calls, name): port for name, port in known.items()}
        self.refuses: list[int] = []
        self.asked: list[tuple[str, ...]] = []
        self.listener = socket.create_server(("127.0.0.1", 0))
        self.port: int = self.listener.getsockname()[1]
        self.start()

    def run(self) -> None:
        with contextlib.suppress(OSError):
            while True:
                peer = self.listener.accept()[0]
                with peer:
                    self.serve(peer)

    def serve(self, peer: socket.socket) -> None:
        """Serves one connection, until it ends."""
        records = Records()
        while True:
            data = peer.recv(4096)
            if not data:
                return
            for record in records.push(data):
                call = read_call(record.body)
                reader = Reader(call.arguments)
                peer.sendall(
                    encode_reply(
                        call.xid,
                        words(self.answer(call.procedure, *(reader.word() for _ in range(4)))),
                    )
                )

    def answer(self, procedure: int, program: int, version: int, protocol: int, port: int) -> int:
        """The result of a call, by RFC 1833, section 3.2."""
        self.asked.append(
            (calls.name_of(calls.PORT_MAPPER, procedure), str(version), str(protocol))
        )
        if procedure == calls.GETPORT:
            return self.programs.get(program, 0)
        if procedure == calls.UNSET:
            return int(self.programs.pop(program, None) is not None)
        if program in self.programs or program in self.refuses:
            return 0
        self.programs[program] = port
        return 1

    def close(self) -> None:
        self.listener.shutdown(socket.SHUT_RDWR)
        self.listener.close()
        self.join(PATIENCE)


class Registering(unittest.TestCase):
    """The command, run as a process."""

    def mapper(self, **known: int) -> Mapper:
        mapper = Mapper(**known)
        self.addCleanup(mapper.close)
        return mapper

    @contextlib.contextmanager
    def running(self, port: int, *given: str) -> Iterator[subprocess.Popen[str]]:
        """Runs the command during a `with` block, and ends it then."""
        command = [sys.executable, "-c", COMMAND, "--port", str(port), *given]
        with subprocess.Popen(
            command, env=ENVIRONMENT, stdout=subprocess.PIPE, stderr=subprocess.PIPE, text=True
        ) as process:
            try:
                yield process
            finally:
                process.kill()

    def status(self, port: int, *given: str) -> tuple[int, str]:
        """The status of a command that fails, and the one line that it prints as its reason."""
        with self.running(port, *given) as process:
            told, fault = process.communicate(timeout=PATIENCE)
            self.assertEqual((told, fault.count("\n")), ("", 1))
            return process.returncode, fault.rstrip("\n")

    def test_ports_are_registered_and_taken_back(self) -> None:
        for number in (signal.SIGINT, signal.SIGTERM, signal.SIGHUP):
            mapper = self.mapper()
            with self.running(mapper.port, "--core", "5096", "--interrupt", "5098") as process:
                assert process.stdout is not None
                self.assertEqual(
                    process.stdout.readline(), "ready: core 5096, abort 4097, interrupt 5098\n"
                )
                self.assertEqual(
                    mapper.programs, {calls.CORE: 5096, calls.ABORT: 4097, calls.INTERRUPT: 5098}
                )
                self.assertIn(("SET", "1", str(calls.TCP)), mapper.asked)
                process.send_signal(number)
                self.assertEqual((process.wait(PATIENCE), process.communicate()), (0, ("", "")))
                self.assertEqual(mapper.programs, {})

    def test_a_port_that_somebody_else_registered(self) -> None:
        mapper = self.mapper(ABORT=7)
        status, reason = self.status(mapper.port)
        self.assertEqual((status, mapper.programs), (1, {calls.ABORT: 7}))
        self.assertRegex(
            reason,
            f"^scanvolt-portmap: somebody else has registered the abort program, {calls.ABORT}, at port 7; "
            f"whoever did can unregister it by `rpcinfo -d {calls.ABORT} 1`",
        )

    def test_a_port_mapper_that_refuses(self) -> None:
        mapper = self.mapper()
        mapper.refuses = [calls.ABORT]
        self.assertEqual(
            self.status(mapper.port),
            (
                2,
                "scanvolt-portmap: the port mapper refuses port 4097 of the abort program: run this as root",
            ),
        )
        self.assertEqual(mapper.programs, {})

    def test_no_port_mapper(self) -> None:
        with socket.create_server(("127.0.0.1", 0)) as listener:
            port = listener.getsockname()[1]
        status, reason = self.status(port)
        self.assertEqual(status, 2)
        self.assertIn("no port mapper answers", reason)
        self.assertIn(
            f"port {port} of 127.0.0.1 (Connection refused): is rpcbind there, and does it run?",
            reason,
        )

    def test_something_else_listens_there(self) -> None:
        with socket.create_server(("127.0.0.1", 0)) as listener:

            def hang_up() -> None:
                for _ in range(2):
                    with contextlib.suppress(OSError):
                        listener.accept()[0].close()

            threading.Thread(target=hang_up, daemon=True).start()
            status, reason = self.status(listener.getsockname()[1])
        self.assertEqual(status, 2)
        self.assertRegex(reason, "^scanvolt-portmap: the port mapper doesn't answer as one: ")

    def test_a_port_mapper_that_ended(self) -> None:
        mapper = Mapper()
        with self.running(mapper.port) as process:
            assert process.stdout is not None
            process.stdout.readline()
            mapper.close()
            process.terminate()
            fault = process.communicate(timeout=PATIENCE)[1]
            self.assertEqual(process.returncode, 2)
            self.assertRegex(fault, "^scanvolt-portmap: no port mapper answers.*Connection refused")

    def test_words(self) -> None:
        for word in ("0", "65536", "x", "-1"):
            with self.subTest(word), self.running(1, "--core=" + word) as process:
                fault = process.communicate(timeout=PATIENCE)[1]
                self.assertEqual(process.returncode, 2)
                self.assertIn("argument --core: not a port, 1 to 65535: " + word, fault)

    def test_the_port_mapper_of_the_machine(self) -> None:
        """Port 111, if its own socket doesn't exist."""
        self.assertEqual((portmap.words([]).port, portmap.LOCAL), (111, "/run/rpcbind.sock"))


if __name__ == "__main__":
    unittest.main()
