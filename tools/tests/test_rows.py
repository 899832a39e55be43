"""Tests of tools/rows and tools/row-diff: the bytes for a text are those of VXI-11, and a row that differs is shown."""
import os
import unittest

from folders import TOP, Folders, ran

from scanvolt.vxi11 import (
    DeviceError,
    ProgramMismatch,
    Records,
    RpcMismatch,
    calls,
    encode_reply,
    words,
)
from scanvolt_tools.rows import messages, row_diff, rows
from scanvolt_tools.rows.dialects import Driver, Explained, Parts, Scripts, Sockets
from scanvolt_tools.rows.files import rows_of, streams
from scanvolt_tools.rows.lines import Telling, hex_of
from scanvolt_tools.rows.singly import DONE
from scanvolt_tools.rows.values import TextError, bytes_of, text_of

# Calls, each with its name and the words for its fields.
CALLS = (
    (calls.null(), "null", ""),
    (
        calls.create_link("inst0", True, 50, 7),
        "create_link",
        'clientId=7 lockDevice=1 lock_timeout=50 device="inst0"',
    ),
    (
        calls.device_write(1, b"*IDN?\n", 1000),
        "device_write",
        'lid=1 io_timeout=1000 end "*IDN?\\n"',
    ),
    (
        calls.device_read(1, 256, 0, 20, 10),
        "device_read",
        "lid=1 requestSize=256 lock_timeout=20 waitlock termchrset termChar=10",
    ),
    (calls.device_readstb(1, 5), "device_readstb", "lid=1 io_timeout=5"),
    (calls.device_trigger(2, 0), "device_trigger", "lid=2"),
    (calls.device_lock(2, 9), "device_lock", "lid=2 waitlock lock_timeout=9"),
    (calls.device_unlock(2), "device_unlock", "lid=2"),
    (calls.device_enable_srq(1, b'a"\\'), "device_enable_srq", 'lid=1 enable=1 "a\\"\\\\"'),
    (
        calls.device_docmd(1, 3, b"x", 0),
        "device_docmd",
        'lid=1 cmd=3 network_order=1 datasize=1 "x"',
    ),
    (
        calls.create_intr_chan(calls.LOOPBACK, 80),
        "create_intr_chan",
        "hostAddr=127.0.0.1 hostPort=80 progNum=interrupt progVers=1",
    ),
    (calls.destroy_intr_chan(), "destroy_intr_chan", ""),
    (calls.device_abort(1), "device_abort", "lid=1"),
    (calls.getport(calls.CORE, 1), "GETPORT", "prog=core vers=1 prot=tcp"),
)
ROWS = """# A comment.
title one link
0 open core
0 create_link device="inst0"
and null
0 turn
reply 0 create_link lid=1
and null xid=2

title a write
singly
joined
0 device_write "ab" lid=1 end
0 turn
reply 0 device_write size=2
refused 4
prints "a b "
"""


class Rows(Folders):
    def tool(self, name: str, *words: str) -> tuple[int, str]:
        """The status of a tool, and what it prints."""
        return ran({"rows": rows.main, "row-diff": row_diff.main}[name], *words)


class Messages(Rows):
    def test_calls(self) -> None:
        for call, name, said in CALLS:
            line = " ".join([name, said]).strip()
            with self.subTest(line):
                self.assertEqual(messages.call_of(line, 7)[0], call.encode(7))
                self.assertEqual(messages.call_text(call.encode(7)[4:])[:2], (line, 7))

    def test_calls_that_are_sent_in_another_way(self) -> None:
        whole = calls.null().encode(1)
        self.assertEqual(messages.call_of("null cut=8", 1)[0][4:], whole[4:12])
        parted = messages.call_of("null fragments=2*0,40", 1)[0]
        self.assertEqual(
            [(one.end, one.body) for one in Records().push(parted)], [(len(whole) + 8, whole[4:])]
        )
        self.assertEqual(Scripts().asked("0 null part=1..2"), ["bytes 0 " + whole[:2].hex()])
        self.assertEqual(Scripts(True).asked("0 null times=2"), ["bytes 0 " + 2 * whole.hex()])
        self.assertEqual(
            Scripts().asked("0 null singly"), [f"bytes 0 {byte:02x}" for byte in whole]
        )

    def test_replies(self) -> None:
        self.assertEqual(
            messages.reply_of('device_read reason=end "7"', 3)[4:],
            encode_reply(3, words(0, calls.ENDED, 1) + b"7\0\0\0")[4:],
        )
        for line, call, raised in (
            ("device_lock error=11", calls.device_lock(1), DeviceError),
            ("PROG_MISMATCH low=1 high=1", calls.null(), ProgramMismatch),
            ("RPC_MISMATCH low=2 high=2", calls.null(), RpcMismatch),
        ):
            body = messages.reply_of(line, 3)[4:]
            self.assertRaises(raised, call.answer, body, 3)
            self.assertEqual(messages.reply_text(body, (call.program, call.procedure)), line)

    def test_bytes(self) -> None:
        for data in (
            b"",
            b'"\\\n\t\x00\xff',
            b"a" * 99,
            b"x" + 20 * b"ab;" + b"y",
            bytes(range(256)),
        ):
            self.assertEqual(bytes_of(text_of(data)), data)
        self.assertEqual(hex_of("40+3*00+1112 2*ab"), "400000001112 abab")
        self.assertEqual(text_of(b"a" * 99), '99*"a"')

    def test_lines_that_cannot_be_read(self) -> None:
        for line in (
            "0 create_lnk",
            "0 null lid",
            '0 create_link device="inst',
            "0 null fragments=1",
            "what",
            "tick x",
        ):
            self.assertRaises(TextError, Scripts().asked, line)
        for reading, line in (
            (Scripts(), "0 turn"),
            (Scripts(), "refused 4"),
            (Driver(), "sweep 0"),
            (Sockets(), "> yes"),
            (Parts(), "queue take -> None"),
        ):
            self.assertRaises(TextError, reading.read, line, ["null"])
        self.assertRaises(TextError, Sockets().read, "a nul")
        self.assertRaises(TextError, Parts().read, "queue take")

    def test_xids(self) -> None:
        reading = Scripts()
        for line in ("0 null", "0 null", "0 null", "0 null xid=9", "1 null"):
            reading.asked(line)
        for line, xid in (
            ("reply 0 null", 1),
            ("reply 0 null", 2),
            ("reply 0 null xid=9", 9),
            ("reply 1 null", 10),
        ):
            self.assertEqual(reading.wanted(line), f"c{line.split()[1]} {encode_reply(xid).hex()}")
        reading.asked("0 null")
        reading.asked("0 close")
        self.assertEqual(reading.asked("0 null")[0].split()[3], "0000000c")
        self.assertEqual(reading.wanted("reply 0 null"), "c0 " + encode_reply(12).hex())
        self.assertEqual(reading.asked("0 null part=3..4"), ["bytes 0 0028"])
        self.assertEqual(reading.asked("0 null part=5..8"), ["bytes 0 0000000c"])

    def test_other_kinds(self) -> None:
        null = calls.null().encode(1).hex()
        reply = encode_reply(1).hex()
        driver, sockets = Driver(), Sockets()
        self.assertEqual(driver.read("0 null"), (["read 0: " + null], []))
        self.assertEqual(driver.read("reply 0 null"), ([], ["write c0 " + reply]))
        self.assertEqual(driver.read("> sweep 0"), ([], ["sweep 0"]))
        self.assertEqual(sockets.read("a null joined"), (["a < " + null], []))
        self.assertEqual(sockets.read("reply a null"), ([f"a > {len(reply) // 2}"], ["a " + reply]))
        self.assertEqual(
            Parts().read("queue take -> Taken(None)"), (["queue take"], ["-> Taken(None)"])
        )
        self.assertEqual(Parts().read("queue clear ->"), (["queue clear"], ["->"]))
        explained = Explained()
        self.assertEqual(
            explained.read("0 null"), (["bytes 0 " + Scripts().asked("0 null")[0][8:]], [])
        )
        for line, wanted in (
            ("- call c0", "- call c0 " + null[8:]),
            ("- call c1 00", "- call c1 00"),
            ("@ 2 0", "@ 2 0"),
            ('- unit 4 "X 1"', "- unit 4 582031"),
            ("= stb 4", "= stb 4"),
            ("reply 0 null", "c0 " + reply),
        ):
            self.assertEqual(explained.read(line), ([], [wanted]))
        self.assertEqual(
            Telling(driver.numbering, always=True).told("write c0 " + reply), ["reply 0 null xid=1"]
        )


def read_all(lines: str) -> tuple[list[str], list[str]]:
    """What the lines of a script ask, and what they want."""
    reading = Scripts()
    read = [reading.read(line) for line in lines.strip().split("\n")]
    return [line for asked, _ in read for line in asked], [
        line for _, wanted in read for line in wanted
    ]


def turned(connection: int, call: str, reply: str) -> str:
    return "{0} {1}\n{0} turn\nreply {0} {2}\n".format(connection, call, reply)


def linked(connection: int, lid: int) -> str:
    return f"{connection} open core\n" + turned(
        connection,
        'create_link device="inst0"',
        f"create_link lid={lid} abortPort=4097 maxRecvSize=4096",
    )


def written(lid: int, text: str, size: int, more: str = "") -> str:
    return turned(0, f'device_write lid={lid} {more} end "{text}"', f"device_write size={size}")


def read_back(lid: int, text: str, more: str = "") -> str:
    return turned(
        0,
        f"device_read lid={lid} requestSize=256 {more}",
        f'device_read reason=end "{text}\\n"',
    )


class ShortForms(Rows):
    # Short forms, and the lines that they mean.
    FORMS = (
        ("0 link", linked(0, 1)),
        ("0 link lid=7", linked(0, 7)),
        ("0 link\n1 link", linked(0, 1) + linked(1, 2)),
        ("0 device_lock lid=1 -> error=4", turned(0, "device_lock lid=1", "device_lock error=4")),
        ("0 device_lock lid=1 -> ok", turned(0, "device_lock lid=1", "device_lock")),
        ("0 device_readstb lid=1 -> stb=0", turned(0, "device_readstb lid=1", "device_readstb")),
        ("0 null -> ok", turned(0, "null", "null")),
        (
            "0 call prog=core proc=21 -> PROC_UNAVAIL",
            turned(0, "call prog=core proc=21", "PROC_UNAVAIL"),
        ),
        (
            "0 null vers=2 -> PROG_MISMATCH low=1 high=1",
            turned(0, "null vers=2", "PROG_MISMATCH low=1 high=1"),
        ),
        ('0 link\n0 write "*CLS -> 1"', linked(0, 1) + written(1, "*CLS -> 1", 9)),
        ('0 write lid=3 io_timeout=5 "A"+2*"B"', written(3, "ABB", 3, "io_timeout=5")),
        ('0 link\n0 read -> 2*"1,"+"1"', linked(0, 1) + read_back(1, "1,1,1")),
        ('0 read lid=3 io_timeout=5 -> "1"', read_back(3, "1", "io_timeout=5")),
        (
            '0 link\n0 query "SYST:ERR?" -> "0,\\"No error\\""',
            linked(0, 1) + written(1, "SYST:ERR?", 9) + read_back(1, '0,\\"No error\\"'),
        ),
        ('0 query lid=2 "*OPC?" -> "1"', written(2, "*OPC?", 5) + read_back(2, "1")),
        # The link that was made last on the connection, also by another line.
        (
            '0 link\n0 create_link device="inst0" -> lid=2\n0 query "*OPC?" -> "1"',
            linked(0, 1)
            + turned(0, 'create_link device="inst0"', "create_link lid=2")
            + written(2, "*OPC?", 5)
            + read_back(2, "1"),
        ),
        (
            '0 create_link device="name" -> error=3\n1 link',
            turned(0, 'create_link device="name"', "create_link error=3") + linked(1, 1),
        ),
    )
    # Lines that can't be read, and what is said about them.
    FAULTS = (
        ('0 query lid=1 "*IDN?"', "no answer after one ` -> `"),
        ('0 query lid=1 "*IDN?" ->', "no answer after one ` -> `"),
        ('0 query lid=1 "1" -> "2" -> "3"', "no answer after one ` -> `"),
        ('0 query lid=1 -> "1"', "a query has one text in quotes before ` -> `"),
        (
            '0 query lid=1 io_timeout=5 "*IDN?" -> "1"',
            "a query has one text in quotes before ` -> `",
        ),
        ('0 query lid=1 "*IDN?" -> error=15', "a read has one text in quotes, its answer"),
        ('0 read lid=1 -> reason=end "1"', "a read has one text in quotes, its answer"),
        ('0 read lid=1 "1"', "no answer after one ` -> `"),
        ('0 read lid=1 -> 256*"1"', "an answer of 257 bytes with its new line, where 256 are read"),
        ("0 write lid=1", "a write has one text in quotes, and no answer"),
        ('0 write lid=1 "1" -> ok', "a write has one text in quotes, and no answer"),
        ('0 write lid=1 4097*"1"', "a write of 4097 bytes, where 4096 are taken"),
        ('0 write lid=1 nothing=1 "1"', "no field nothing=1"),
        ('0 write "*CLS"', "no link was made on connection 0; say which, by `lid=`"),
        ("0 link 2", "a link can have `lid=`, and not 2"),
        ("0 nothing -> ok", "no call of VXI-11: nothing"),
        ("0 device_lock lid=1 -> stb=1", "no field stb=1: there are error"),
        ("0 device_lock lid=1 ->", "no answer after one ` -> `"),
    )

    def test_each_means_its_long_lines(self) -> None:
        for short, long in self.FORMS:
            with self.subTest(short):
                self.assertEqual(read_all(short), read_all(long))

    def test_the_longest_that_fit(self) -> None:
        self.assertEqual(
            read_all('0 write lid=1 4096*"1"')[1], ["c0 " + encode_reply(1, words(0, 4096)).hex()]
        )
        self.assertEqual(
            len(read_all('0 read lid=1 -> 255*"1"')[1][0]),
            3 + 2 * (len(encode_reply(1, words(0, 4, 256))) + 256),
        )

    def test_a_fault_is_told_with_its_file_and_line(self) -> None:
        for line, said in self.FAULTS:
            with self.subTest(line):
                path = self.write("one/rows/a.rows", "title a fault\n" + line + "\n")
                with self.assertRaises(TextError) as raised:
                    rows_of(path)
                self.assertTrue(
                    str(raised.exception).startswith(f"{path}:2: {said}"), raised.exception
                )

    def test_a_form_needs_a_connection_without_calls_that_wait(self) -> None:
        for line in ("0 null -> ok", "0 link", '0 query lid=1 "*OPC?" -> "1"'):
            reading = Scripts()
            reading.read("0 device_lock lid=1 waitlock")
            with self.assertRaisesRegex(TextError, "a call waits on connection 0"):
                reading.read(line)
            reading.read("1 null -> ok")
            reading.read("0 close")
            reading.read(line)

    def test_a_form_is_no_message_to_continue(self) -> None:
        with self.assertRaisesRegex(TextError, "`and` continues a message"):
            Scripts().read("0 link", ["null"])

    def test_the_example_of_contributing_is_a_row(self) -> None:
        with open(TOP + "/CONTRIBUTING.md", encoding="utf-8") as file:
            example = next(
                block for block in file.read().split("```\n") if block.startswith("title ")
            )
        (row,) = rows_of(self.write("one/rows/a.rows", example))
        self.assertEqual((len(row.asked), len(row.wanted)), (10, 4))

    def test_a_peer_of_a_socket_waits_for_its_result(self) -> None:
        short, long = Sockets(), Sockets()
        asked, wanted = short.read("a device_lock lid=1 -> error=11")
        self.assertEqual(
            asked,
            long.read("a device_lock lid=1")[0] + long.read("reply a device_lock error=11")[0],
        )
        self.assertEqual(wanted, ["a " + encode_reply(1, words(11)).hex()])
        for line in ("> a -> b", "a core", 'a says "x -> y"'):
            self.assertEqual(short.longer(line), [(line, ())])
        for line in ("a device_lock lid=1 ->", "a link", "a device_lock -> stb=1"):
            self.assertRaises(TextError, short.read, line)
        short.read("a null")
        self.assertRaisesRegex(
            TextError, "a call waits on connection a", short.read, "a null -> ok"
        )

    def test_it_is_the_same_where_it_is_explained(self) -> None:
        self.assertEqual(Explained().read("0 null -> ok"), Scripts().read("0 null -> ok"))


class Streams(Rows):
    def test_a_file(self) -> None:
        asked, wanted = streams(rows_of(self.write("one/rows/a.rows", ROWS)))
        both = calls.create_link().encode(1) + calls.null().encode(2)
        spaced = " ".join(both.hex()[at : at + 8] for at in range(0, len(both.hex()), 8))
        write = calls.device_write(1, b"ab", 0).encode(1)
        self.assertEqual(
            asked,
            f"= one link\nopen 0 core\nbytes 0 {spaced}\nturn 0\n\n"
            f"= a write\nbytes 0 {write.hex()}\nturn 0\n",
        )
        linked = encode_reply(1, words(0, 1, 0, 0)) + encode_reply(2)
        written = encode_reply(1, words(0, 2))
        self.assertEqual(
            wanted,
            f"= one link\nc0 {linked.hex()}\n= a write\nc0 {written.hex()}\nrefused 4\na b \n",
        )

    def test_single_bytes_are_made_of_the_others(self) -> None:
        self.write("one/rows/a.rows", ROWS)
        self.assertEqual(self.tool("rows", self.folder + "/one"), (0, ""))
        row = self.read("one/stdin").split("\n= ")[2].split("\n")
        self.assertEqual(row[:2], ["single bytes: a write", "! without " + DONE])
        first, second = (
            calls.device_write(1, data, 0, end=data == b"b").encode(1).hex()
            for data in (b"a", b"b")
        )
        self.assertEqual(row[2:], ["bytes 0 " + first, "turn 0", "bytes 0 " + second, "turn 0", ""])
        self.assertEqual(
            self.read("one/stdout").split("\n= ")[2], "single bytes: a write\nrefused 4\na b \n"
        )

    def test_faults_of_the_text(self) -> None:
        path = self.write("one/rows/a.rows", ROWS + "0 nothing\n")
        line = ROWS.count("\n") + 1
        status, told = self.tool("rows", "--check", self.folder + "/one")
        self.assertEqual((status, told), (1, f"{path}:{line}: no call of VXI-11: nothing\n"))
        self.write("one/rows/a.rows", ROWS + "\ntitle a write\n")
        self.assertIn(
            "another row has this title", self.tool("rows", "--check", self.folder + "/one")[1]
        )
        self.write("one/rows/a.rows", ROWS + 500 * "\n")
        self.assertIn(
            f"a.rows: {500 + line - 1} lines",
            self.tool("rows", "--check", self.folder + "/one")[1],
        )
        self.assertFalse(os.path.exists(self.folder + "/one/stdin"))


class Differences(Rows):
    def setUp(self) -> None:
        super().setUp()
        self.path = self.write("one/rows/a.rows", ROWS)
        self.assertEqual(self.tool("rows", self.folder + "/one")[0], 0)
        self.wanted = self.read("one/stdout")

    def told(self, printed: str) -> tuple[int, str]:
        self.write("one/out/stdout", printed)
        return self.tool("row-diff", self.folder + "/one")

    def test_none(self) -> None:
        self.assertEqual(self.told(self.wanted), (0, ""))
        self.assertEqual(self.tool("row-diff", self.folder)[0], 2)

    def test_a_row_is_told_with_its_title_its_question_and_both_answers(self) -> None:
        came = encode_reply(1, words(4, 0)).hex()
        status, told = self.told(self.wanted.replace(encode_reply(1, words(0, 2)).hex(), came))
        self.assertEqual(status, 1)
        lines = told.split("\n")
        self.assertEqual(lines[0], f"{self.path}:10: a write")
        self.assertIn('  call    0 device_write "ab" lid=1 end', lines)
        at = lines.index("  wanted  reply 0 device_write size=2 xid=1")
        self.assertEqual(
            lines[at + 1], "  came    reply 0 device_write error=4 xid=1 (invalid link identifier)"
        )
        self.assertEqual(lines[at + 2].index("^"), lines[at].index("size"))
        self.assertIn("1 of 3 rows differ", told)

    def test_a_question_beside_its_answer_is_shown(self) -> None:
        self.write(
            "two/rows/a.rows",
            "title a queue\nkind parts\nqueue count -> 0\nqueue take -> Taken(None)\n",
        )
        self.assertEqual(self.tool("rows", self.folder + "/two")[0], 0)
        self.write("two/out/stdout", self.read("two/stdout").replace("Taken(None)", "Cleared"))
        status, told = self.tool("row-diff", self.folder + "/two")
        self.assertEqual(status, 1)
        self.assertIn(
            "  | queue take -> Taken(None)\n  wanted  -> Taken(None)\n  came    -> Cleared\n", told
        )

    def test_a_short_form_is_shown_with_the_call_whose_reply_differs(self) -> None:
        path = self.write("two/rows/a.rows", 'title a query\n0 link\n0 query "*OPC?" -> "1"\n')
        self.assertEqual(self.tool("rows", self.folder + "/two")[0], 0)
        good = self.read("two/stdout")
        replies = good.split("\n")[1:4]
        for wanted, came, call, shown in (
            (
                replies[0],
                encode_reply(1, words(0, 2, 4097, 4096)),
                'create_link device="inst0"',
                [f"create_link lid={lid} abortPort=4097 maxRecvSize=4096 xid=1" for lid in (1, 2)],
            ),
            (
                replies[1],
                encode_reply(2, words(11, 0)),
                'device_write lid=1 end "*OPC?"',
                (
                    "device_write size=5 xid=2",
                    "device_write error=11 xid=2 (device locked by another link)",
                ),
            ),
            (
                replies[2],
                encode_reply(3, words(15, 0, 0)),
                "device_read lid=1 requestSize=256",
                ('device_read reason=end "1\\n" xid=3', "device_read error=15 xid=3 (I/O timeout)"),
            ),
        ):
            self.write("two/out/stdout", good.replace(wanted, "c0 " + came.hex()))
            status, told = self.tool("row-diff", self.folder + "/two")
            self.assertEqual(status, 1)
            lines = told.split("\n")
            self.assertEqual(lines[0], path + ":1: a query")
            asked = "  | 0 link" if wanted == replies[0] else '  | 0 query "*OPC?" -> "1"'
            at = lines.index(asked)
            self.assertEqual(
                lines[at + 1 : at + 4],
                [
                    "  call    0 " + call,
                    "  wanted  reply 0 " + shown[0],
                    "  came    reply 0 " + shown[1],
                ],
            )

    def test_a_value_that_differs_is_told_with_its_title(self) -> None:
        path = self.write(
            "two/rows/a.rows",
            "title a role\nkind explain\n0 open core\n@ 1 0\n= c0.role core\n@ end 0\n\n" + ROWS,
        )
        self.assertEqual(self.tool("rows", self.folder + "/two")[0], 0)
        wanted = self.read("two/stdout")
        self.write("two/out/stdout", wanted)
        self.assertEqual(self.tool("row-diff", self.folder + "/two"), (0, ""))
        self.write("two/out/stdout", wanted.replace("= c0.role core", "= c0.role abort"))
        status, told = self.tool("row-diff", self.folder + "/two")
        self.assertEqual(status, 1)
        self.assertIn(
            f"{path}:1: a role\n  kind explain\n  | 0 open core\n  | @ 1 0\n"
            "  wanted  = c0.role core\n  came    = c0.role abort\n",
            told,
        )
        self.assertIn("1 of 4 rows differ", told)

    def test_a_line_less_a_line_more_and_an_end(self) -> None:
        self.assertIn(
            "  came    nothing more",
            self.told(self.wanted.replace("refused 4\na b \n= s", "refused 4\n= s"))[1],
        )
        self.assertIn("  wanted  nothing more", self.told(self.wanted + "idle\n")[1])
        status, told = self.told(self.wanted[: self.wanted.index("= single")])
        self.assertEqual(status, 1)
        self.assertIn("single bytes: a write\n  came    nothing: the program had ended", told)
        self.assertIn("3 of 3 rows differ", self.told("")[1])
        self.assertIn(
            "no row differs, but the titles do", self.told(self.wanted + "= one more\n")[1]
        )


if __name__ == "__main__":
    unittest.main()
