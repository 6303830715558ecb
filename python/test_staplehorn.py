"""The module gives the library's answers."""
import os
import threading
import unittest

import staplehorn as s

ROOT = os.path.dirname(os.path.dirname(os.path.abspath(__file__)))


def contents(name):
    with open(os.path.join(ROOT, name), "rb") as file:
        return file.read()


class Module(unittest.TestCase):
    def refused(self, reason, function, *args, **more):
        with self.assertRaises(s.Refused) as caught:
            function(*args, **more)
        self.assertEqual(caught.exception.reason, reason)
        return caught.exception

    def test_sheets(self):
        given = contents("crates/foot/stdin")
        self.assertEqual(s.judge(given), s.Passed(10, 96, [0, 64, 0]))
        self.assertEqual(s.judge(bytearray(given)).starts, [0, 64, 0])
        self.assertEqual(s.judge(b"sheet\t1\tsm_100a\n0\texit;\n").starts, [])
        self.assertEqual(s.report(given), contents("crates/foot/stdout"))
        leak = self.refused(s.Reason.EXIT, s.judge, contents("examples/leak.sheet"))
        self.assertEqual((leak.line, leak.column, leak.held, leak.peak), (6, 1, 32, 96))
        self.assertEqual(str(leak), "line 6, column 1: exit while columns are held, a line after exit, or no exit")
        self.assertEqual(s.report(b""), b"2\t1\t1\t0\t0\n")
        large = self.refused(1, s.judge, b"x" * 65537)
        self.assertEqual((large.line, large.column, large.held, large.peak), (0, 0, 0, 0))
        self.assertEqual(str(large), "the sheet has over 65,536 bytes or 4,096 lines")
        self.refused(2, s.judge, b"sheet\t1\tsm_100a\n0\texit;\0\n")
        number = self.refused(4, s.judge, b"sheet\t1\tsm_100a\n0\tmov.b32 x, 4294967296;\n")
        self.assertEqual((number.line, number.column, number.held, number.peak), (2, 14, 0, 0))

    def test_outstanding(self):
        """A load or store is outstanding until its own warp's wait of its kind; a dealloc before that is 18."""
        load, store = b"1\ttcgen05.ld.sync.aligned.32x32b.x1.b32 {r}, [t+2097152];\n", b"1\ttcgen05.st.sync.aligned.32x32b.x1.b32 [t+2097152], {r};\n"
        alloc, dealloc = b"0\ttcgen05.alloc.cta_group::1.sync.aligned.b32 [t], 32;\n", b"0\ttcgen05.dealloc.cta_group::1.sync.aligned.b32 t, 32;\n"
        sheet = b"sheet\t1\tsm_100a\n" + alloc + b"%b" + dealloc + b"0\texit;\n"
        wait = b"%d\ttcgen05.wait::%b.sync.aligned;\n"
        for use, kind, other in ((load, b"ld", b"st"), (store, b"st", b"ld")):
            self.assertEqual(s.judge(sheet % (use + use + wait % (1, kind))), s.Passed(7, 32, [0]))
            for line, uses in ((4, use), (5, use + wait % (0, kind)), (5, use + wait % (1, other)), (5, wait % (1, kind) + use)):
                early = self.refused(s.Reason.OUTSTANDING, s.judge, sheet % uses)
                self.assertEqual((early.line, early.column, early.held, early.peak), (line, 3, 32, 32), uses)
        self.assertEqual(str(early), "line 5, column 3: dealloc while a load or store of any warp is outstanding on its allocation")

    def test_data(self):
        names = sorted(n for n in os.listdir(os.path.join(ROOT, "data")) if n.endswith(".sheet"))
        self.assertGreater(len(names), 200)
        for name in names:
            self.assertEqual(s.report(contents("data/" + name)), contents("data/" + name[:-5] + "report"), name)

    def test_statements(self):
        self.assertEqual(s.canonical(b"mov.b32  x ,0x10 ;"), b"mov.b32 x, 16;")
        self.assertIsNone(self.refused(4, s.canonical, b"mov.b32 x, 4294967296;").column)
        s.statement(b"exit;")
        for reason, column, text in (
            (3, 5, b"exit"),
            (3, 1, b""),
            (3, 1, b" exit;"),
            (3, 6, b"exit; "),
            (4, 12, b"mov.b32 x, 4294967296;"),
            (5, 1, b"tcgen05.ld.sync.aligned.32x32b.x2.b32 {r}, [t];"),
            (3, 4098, b"mov.b32 x," + b" " * 4084 + b"64;"),
        ):
            alone = self.refused(reason, s.statement, text)
            self.assertEqual((alone.line, alone.column, alone.held, alone.peak), (None, column, None, None), text)
        self.assertEqual(str(self.refused(3, s.statement, b"exit")), "column 5: the statement matches no form")

    def test_numbers(self):
        """Four spellings, each with a U or not, are written in decimals; 3 at the start of a run that has none; 4 by the value."""
        for text, value in (
            ("0", 0), ("0U", 0), ("00", 0), ("000U", 0), ("07", 7), ("040", 32), ("064", 52), ("0100U", 64), ("9", 9), ("64U", 64),
            ("0x40", 64), ("0X00fFU", 255), ("0xb1", 0xB1), ("0b100000", 32), ("0B0101U", 5),
            ("0" * 200 + "17", 15), ("0x" + "0" * 200 + "17", 23), ("0b" + "0" * 200 + "11", 3),
            ("4294967295", 2**32 - 1), ("0xffffffff", 2**32 - 1), ("037777777777U", 2**32 - 1), ("0b" + "1" * 32, 2**32 - 1),
        ):
            for before in ("mov.b32 x, ", "mov.b64 x, ", "tcgen05.dealloc.cta_group::1.sync.aligned.b32 t, "):
                self.assertEqual(s.canonical(f"{before}{text};".encode()), f"{before}{value};".encode())
        for text in ("08", "019", "0b2", "0b102", "0b", "0bU", "0x", "0xU", "64u", "0UU", "64U1", "0o7", "U"):
            self.assertEqual(self.refused(3, s.statement, f"mov.b64 x, {text};".encode()).column, 12, text)
        for bits, over in (
            (32, ("4294967296", "0x100000000", "040000000000", "0b1" + "0" * 32)),
            (64, ("18446744073709551616", "0x1" + "0" * 16, "02" + "0" * 21, "0b1" + "0" * 64)),
        ):
            for text in over:
                for end in ("", "U"):
                    self.assertEqual(self.refused(4, s.statement, f"mov.b{bits} x,  {text}{end};".encode()).column, 13, text)
        for text, value in (("(32*65536)+4", 2097156), ("2-3*-4", 14), ("- ( 3-0x10U )", 13), ("10-4-3", 3), ("-0", 0), ("--5", 5)):
            self.assertEqual(s.canonical(f"mov.b32 x, {text};".encode()), f"mov.b32 x, {value};".encode())
        for text in ("1-2", "65536*65536", "9223372036854775807+1-1", "4294967296*4294967296*0"):
            self.assertEqual(self.refused(4, s.statement, f"mov.b32 x, {text};".encode()).column, 12, text)
        for text, column in (("+1", 12), ("1++2", 14), ("()", 13), ("(1)(2)", 15), ("4/2", 13), ("(" * 17 + "1" + ")" * 17, 28), ("(1", 14)):
            self.assertEqual(self.refused(3, s.statement, f"mov.b32 x, {text};".encode()).column, column, text)
        alloc, dealloc = "tcgen05.alloc.cta_group::1.sync.aligned.b32", "tcgen05.dealloc.cta_group::1.sync.aligned.b32"
        sheet = f"sheet\t1\tsm_100a\n0\t{alloc} [t], 0100;\n0\t{alloc} [u], 0b100000U;\n0\t{dealloc} t, 64;\n0\t{dealloc} u, 0x20;\n0\texit;\n"
        self.assertEqual(s.judge(sheet.encode()), s.Passed(6, 96, [0, 64]))
        octal = self.refused(s.Reason.COLUMNS, s.judge, sheet.replace("0100", "064").encode())
        self.assertEqual((octal.line, octal.column, octal.held, octal.peak), (2, 52, 0, 0))

    def test_words(self):
        fields = s.Instruction(dtype=1, n=64, m=128)
        self.assertEqual(s.instruction_decode("f16", 0x08100010), fields)
        self.assertEqual(s.instruction_encode("f16", fields), 0x08100010)
        s.instruction_judge("f16", 0x08100010)
        s.instruction_listed("f16", fields)
        self.refused(20, s.instruction_judge, "i8", 0x080A00A0)
        self.refused(13, s.instruction_judge, "f16", 0x0C000020)
        self.refused(20, s.instruction_judge, "f16", 0x08000020)
        self.refused(21, s.instruction_judge, "f16", 0x08100020)
        self.refused(21, s.instruction_listed, "f16", fields._replace(dtype=2))
        self.refused(12, s.instruction_decode, "f16", 1)
        self.refused(12, s.instruction_decode, "f16", 1 << 32)
        self.refused(12, s.instruction_encode, "f16", fields._replace(n=64 + (1 << 32)))
        self.refused(12, s.instruction_decode, "f17", 0)
        self.assertEqual(s.instruction_k("tf32", sp=True), 16)
        self.assertEqual(s.shared_decode(0x0000400800100000), s.Shared(leading=256, stride=128))
        self.assertEqual(s.shared_encode(s.Shared(leading=256, stride=128)), 0x0000400800100000)
        self.refused(12, s.shared_encode, s.Shared(start=8))
        s.request(32)
        self.refused(9, s.request, 96)
        self.refused(9, s.request, 32 + (1 << 32))

    def test_sparse_ws(self):
        """With .ws and .sp N is 64 or 128 in each kind; with one of them it may be 256. The word reads and is written either way."""
        for kind, types, dtype, code in (("f16", 0x10, 1, 0), ("tf32", 0x910, 1, 2), ("f8f6f4", 0x10, 1, 0), ("i8", 0x20, 2, 0)):
            for ws, sp, n, shape, good in (
                (1, 1, 64, 0x08100004, True), (1, 1, 128, 0x08200004, True), (1, 1, 256, 0x08400004, False),
                (1, 0, 256, 0x08400000, True), (0, 1, 256, 0x08400004, True),
            ):
                with self.subTest(kind=kind, ws=ws, sp=sp, n=n):
                    word, fields = shape | types, s.Instruction(sparse=sp, dtype=dtype, atype=code, btype=code, n=n, m=128)
                    for function, given in ((s.instruction_judge, word), (s.instruction_listed, fields)):
                        if good:
                            function(kind, given, ws=ws, sp=sp)
                        else:
                            self.refused(s.Reason.SHAPE_N, function, kind, given, ws=ws, sp=sp)
                    self.assertEqual(s.instruction_decode(kind, word, ws=ws, sp=sp), fields)
                    self.assertEqual(s.instruction_encode(kind, fields, ws=ws, sp=sp), word)
        sheet = (
            "sheet\t1\tsm_100a\n0\ttcgen05.alloc.cta_group::1.sync.aligned.b32 [t], 512;\n0\tmov.b64 b, 0x400800100000;\n"
            "0\tmov.b32 i, 0x08400014;\n0\ttcgen05.mma.ws.sp.cta_group::1.kind::f16 [t], b, b, [t], i, p;\n"
            "0\ttcgen05.dealloc.cta_group::1.sync.aligned.b32 t, 512;\n0\texit;\n"
        )
        self.assertEqual(s.report(sheet.encode()), b"20\t5\t60\t512\t512\n")
        self.assertEqual(s.judge(sheet.replace("0x084", "0x082").encode()), s.Passed(7, 512, [0]))
        dense = sheet.replace("0x08400014", "0x08400010").replace(".sp", "").replace("[t], i", "i")
        self.assertEqual(s.judge(dense.encode()), s.Passed(7, 512, [0]))

    def test_fragments(self):
        """An element of each pair of registers, worked out by hand; every place once, there and back; one past each limit is refused."""
        for matrix, holder, place in (
            ("A", (0, 0), (0, 0)), ("A", (5, 1), (1, 3)), ("A", (5, 3), (9, 3)), ("A", (5, 4), (1, 10)), ("A", (6, 6), (9, 12)),
            ("A", (31, 7), (15, 15)), ("B", (0, 0), (0, 0)), ("B", (7, 1), (7, 1)), ("B", (14, 2), (12, 3)), ("B", (31, 3), (15, 7)),
            ("C", (0, 0), (0, 0)), ("C", (7, 1), (1, 7)), ("C", (14, 2), (11, 4)), ("C", (31, 3), (15, 7)),
        ):
            self.assertEqual(s.fragment_place(matrix, *holder), s.Place(*place))
            self.assertEqual(s.fragment_holder(matrix, *place), s.Holder(*holder))
        for matrix, elements, columns in (("A", 8, 16), ("B", 4, 8), ("C", 4, 8)):
            places = {s.fragment_place(matrix, t, e): (t, e) for t in range(32) for e in range(elements)}
            self.assertEqual(sorted(places), [(row, column) for row in range(16) for column in range(columns)])
            for place, holder in places.items():
                self.assertEqual(s.fragment_holder(matrix, *place), holder)
            for thread, element in ((32, 0), (0, elements), (32, elements), (-1, 0), (0, -1), (1 << 32, 0), (0, 1 << 32), (2**32 - 1, 0)):
                self.refused(s.Reason.FRAGMENT, s.fragment_place, matrix, thread, element)
            for row, column in ((16, 0), (0, columns), (16, columns), (-1, 0), (0, -1), (1 << 32, 0), (0, 1 << 32), (0, 2**32 - 1)):
                self.refused(s.Reason.FRAGMENT, s.fragment_holder, matrix, row, column)
        for matrix in ("D", "a", "", 0, None):
            self.refused(s.Reason.FRAGMENT, s.fragment_place, matrix, 0, 0)
            self.refused(s.Reason.FRAGMENT, s.fragment_holder, matrix, 0, 0)
        self.assertEqual(s.fragment_place(element=3, thread=5, matrix="A"), s.Place(row=9, column=3))
        self.assertEqual(s.fragment_holder(column=3, row=5, matrix="A"), s.Holder(thread=21, element=1))
        with self.assertRaises(TypeError):
            s.fragment_place("A", 1.0, 0)
        self.assertEqual(str(self.refused(22, s.fragment_holder, "B", 5, 9)), s.TEXTS[22])

    def test_threads(self):
        given, wanted, wrong = contents("crates/foot/stdin"), contents("crates/foot/stdout"), []

        def work():
            for _ in range(200):
                if s.report(given) != wanted:
                    wrong.append(1)

        threads = [threading.Thread(target=work) for _ in range(4)]
        for thread in threads:
            thread.start()
        for thread in threads:
            thread.join()
        self.assertEqual(wrong, [])


if __name__ == "__main__":
    unittest.main()
