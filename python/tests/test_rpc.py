"""Records, calls and replies of RFC 5531 and RFC 4506. The bytes are written down by hand as the standards have
them, so scanvolt.vxi11 isn't tested with itself.
"""

from __future__ import annotations

import unittest

from scanvolt.vxi11 import (
    AuthenticationRefused,
    BadReply,
    GarbageArguments,
    ProcedureUnavailable,
    ProgramMismatch,
    ProgramUnavailable,
    Reader,
    Records,
    RpcMismatch,
    SystemFault,
    XdrError,
    calls,
    encode_call,
    encode_denial,
    encode_refusal,
    encode_reply,
    mark,
    opaque,
    read_call,
    read_reply,
    record,
    rpc,
    words,
)
from scanvolt.vxi11.rpc import RESULT_AT


def data(*texts: str) -> bytes:
    """The bytes of texts in hexadecimal."""
    return bytes.fromhex(" ".join(texts))


class Values(unittest.TestCase):
    """RFC 4506, section 4."""

    def test_words(self) -> None:
        self.assertEqual(words(1, 0x123456, -1), data("00000001 00123456 ffffffff"))

    def test_opaque_is_filled_up(self) -> None:
        self.assertEqual(opaque(b""), data("00000000"))
        self.assertEqual(opaque(b"inst0"), data("00000005 696e7374 30000000"))
        self.assertEqual(opaque(b"scan"), data("00000004 7363616e"))

    def test_reader(self) -> None:
        reader = Reader(data("ffffffff ffffffff 00000001 00000003 61626300 0102"))
        self.assertEqual((reader.word(), reader.signed(), reader.boolean()), (0xFFFFFFFF, -1, True))
        self.assertEqual((reader.opaque(), reader.rest()), (b"abc", b"\1\2"))

    def test_what_cannot_be_read(self) -> None:
        self.assertRaises(XdrError, Reader(data("000000")).word)
        self.assertRaises(XdrError, Reader(data("000000")).signed)
        self.assertRaises(XdrError, Reader(data("00000002")).boolean)
        for text in ("00000005 61", "00000003 61626301", "00000001 61"):
            with self.subTest(text):
                self.assertRaises(XdrError, Reader(data(text)).opaque)


class Marks(unittest.TestCase):
    """RFC 5531, section 11: the top bit of a mark says that the fragment is the last one; the others are its length."""

    def test_one_fragment(self) -> None:
        self.assertEqual(record(b"abcde"), data("80000005 6162636465"))
        self.assertEqual((mark(5), mark(5, last=False)), (data("80000005"), data("00000005")))

    def test_pieces_of_any_size(self) -> None:
        stream = data("00000002 6162 80000001 63", "80000000", "00000000 80000004 64656667")
        for size in range(1, len(stream) + 1):
            records = Records()
            found = [
                one
                for start in range(0, len(stream), size)
                for one in records.push(stream[start : start + size])
            ]
            with self.subTest(size=size):
                self.assertEqual([one.body for one in found], [b"abc", b"", b"defg"])
                self.assertEqual(
                    [(one.start, one.end) for one in found], [(0, 11), (11, 15), (15, 27)]
                )

    def test_an_unfinished_record(self) -> None:
        records = Records()
        self.assertEqual(records.push(data("80000004 616263")), [])
        self.assertEqual(records.held(), 7)
        self.assertEqual([one.body for one in records.push(b"d")], [b"abcd"])


class Messages(unittest.TestCase):
    """RFC 5531, section 9."""

    CALL = data(
        "80000028",
        "12345678 00000000 00000002",
        "000607af 00000001 0000000a",
        "00000000 00000000",
        "00000000 00000000",
    )
    SUCCESS = "00000007 00000001 00000000 00000000 00000000 00000000"

    def test_a_call(self) -> None:
        self.assertEqual(encode_call(0x12345678, calls.CORE, 1, calls.CREATE_LINK), self.CALL)
        self.assertEqual(
            encode_call(0x12345678, calls.CORE, 1, calls.CREATE_LINK, b"\0\0\0\1"),
            data("8000002c") + self.CALL[4:] + data("00000001"),
        )

    def test_a_call_that_came(self) -> None:
        found = read_call(self.CALL[4:] + b"\0\0\0\5")
        self.assertEqual(
            (found.xid, found.program, found.version, found.procedure, found.arguments),
            (0x12345678, calls.CORE, 1, calls.CREATE_LINK, b"\0\0\0\5"),
        )

    def test_a_call_with_a_credential(self) -> None:
        found = read_call(
            data(
                "00000001 00000000 00000002 000607b1 00000001 0000001e",
                "00000001 00000005 6162636465 000000",
                "00000000 00000000",
                "aabbccdd",
            )
        )
        self.assertEqual(found.arguments, data("aabbccdd"))

    def test_what_is_no_call(self) -> None:
        for body in (b"", data(self.SUCCESS), self.CALL[4:-1]):
            with self.subTest(body.hex()), self.assertRaises(XdrError):
                read_call(body)

    def test_a_result(self) -> None:
        self.assertEqual(
            read_reply(data(self.SUCCESS, "00000000 0000000f"), 7), data("00000000 0000000f")
        )

    def test_a_reply(self) -> None:
        self.assertEqual(encode_reply(7, b"abcd"), data("8000001c", self.SUCCESS, "61626364"))
        self.assertEqual(encode_reply(7, b"abcd")[RESULT_AT:], b"abcd")

    def test_a_result_behind_a_verifier(self) -> None:
        body = data("00000007 00000001 00000000 00000002 00000003 61626300 00000000", "00000009")
        self.assertEqual(read_reply(body, 7), data("00000009"))

    def test_refusals(self) -> None:
        accepted = "00000007 00000001 00000000 00000000 00000000"
        for status, kind in (
            (1, ProgramUnavailable),
            (3, ProcedureUnavailable),
            (4, GarbageArguments),
            (5, SystemFault),
            (6, BadReply),
        ):
            with self.subTest(status), self.assertRaises(kind):
                read_reply(data(accepted) + words(status), 7)

    def test_versions(self) -> None:
        with self.assertRaises(ProgramMismatch) as caught:
            read_reply(
                data("00000007 00000001 00000000 00000000 00000000 00000002 00000001 00000003"), 7
            )
        self.assertEqual((caught.exception.low, caught.exception.high), (1, 3))
        with self.assertRaises(RpcMismatch) as denied:
            read_reply(data("00000007 00000001 00000001 00000000 00000002 00000002"), 7)
        self.assertEqual((denied.exception.low, denied.exception.high), (2, 2))
        with self.assertRaises(AuthenticationRefused) as refused:
            read_reply(data("00000007 00000001 00000001 00000001 00000005"), 7)
        self.assertEqual(refused.exception.number, 5)

    def test_replies_that_refuse(self) -> None:
        self.assertEqual(
            encode_refusal(7, rpc.PROG_MISMATCH, 1, 3),
            data(
                "80000020",
                "00000007 00000001 00000000 00000000 00000000 00000002 00000001 00000003",
            ),
        )
        self.assertEqual(
            encode_denial(7, rpc.RPC_MISMATCH, 2, 2),
            data("80000018", "00000007 00000001 00000001 00000000 00000002 00000002"),
        )

    def test_what_is_no_reply(self) -> None:
        for body in (
            b"",
            data(self.SUCCESS)[:23],
            self.CALL[4:],
            data("00000008") + data(self.SUCCESS)[4:],
            data("00000007 00000001 00000002"),
        ):
            with self.subTest(body.hex()), self.assertRaises(BadReply):
                read_reply(body, 7)


if __name__ == "__main__":
    unittest.main()
