"""A script whose input or output fails."""
import os
import resource
import signal
import socket
import struct
import subprocess
import tempfile
import time
import unittest

PROGRAM = os.environ.get("LOCKS_PROGRAM")

# Each but the first prints `bad`.
LINES = ["table 5\n", "00 0000\n", "00 0000\n"]
RESET = struct.pack("ii", 1, 0)  # a connection that is closed so is reset
MINUTE = struct.pack("ll", 60, 0)


@unittest.skipUnless(PROGRAM, "LOCKS_PROGRAM does not tell the program")
class StreamTest(unittest.TestCase):
    def connected(self):
        """The two ends of a connection."""
        with socket.create_server(("127.0.0.1", 0)) as server:
            one = self.enterContext(socket.create_connection(server.getsockname()))
            return one, self.enterContext(server.accept()[0])

    def started(self, stdin):
        """A script that is read from there."""
        return subprocess.Popen(
            [PROGRAM, "sim"], stdin=stdin, stdout=subprocess.PIPE, stderr=subprocess.PIPE, text=True
        )

    def ended(self, process):
        """The status, the output and what is told."""
        out, err = process.communicate(timeout=60)
        return process.returncode, out, err

    def test_a_failed_read_is_told_after_what_was_read(self):
        for count, out in enumerate(["", "", "bad\n", "bad\nbad\n"]):
            with self.subTest(lines=count):
                writer, reader = self.connected()
                writer.sendall("".join(LINES[:count]).encode())
                writer.setsockopt(socket.SOL_SOCKET, socket.SO_LINGER, RESET)
                writer.close()
                self.assertEqual(self.ended(self.started(reader)), (1, out, "fault 23\n"))

    def test_an_interrupted_read_is_made_again(self):
        writer, reader = self.connected()
        reader.setsockopt(socket.SOL_SOCKET, socket.SO_RCVTIMEO, MINUTE)  # such a read does not go on after a stop
        process = self.started(reader)
        for line in LINES:
            writer.sendall(line.encode())
            time.sleep(0.1)
            process.send_signal(signal.SIGSTOP)
            os.waitpid(process.pid, os.WUNTRACED)
            process.send_signal(signal.SIGCONT)
        writer.close()
        self.assertEqual(self.ended(process), (0, "bad\nbad\n", ""))

    def test_a_failed_write_is_told_after_what_was_written(self):
        def limit():
            signal.signal(signal.SIGXFSZ, signal.SIG_IGN)
            resource.setrlimit(resource.RLIMIT_FSIZE, (4096, 4096))

        script = (LINES[0] + LINES[1] * 5000).encode()
        with tempfile.TemporaryFile() as out:
            ran = subprocess.run(
                [PROGRAM, "sim"], input=script, stdout=out, stderr=subprocess.PIPE, preexec_fn=limit, timeout=60
            )
            out.seek(0)
            self.assertEqual((ran.returncode, out.read(), ran.stderr), (1, b"bad\n" * 1024, b"fault 24\n"))


if __name__ == "__main__":
    unittest.main()
