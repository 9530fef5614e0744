"""Files that are no L5X file, or are one in an unusual form."""

import json
import os
import subprocess
import sys
import tempfile
import unittest

from common import TOOLS
from l5x_files import call, convert, file

BOMB = (
    '<?xml version="1.0"?><!DOCTYPE b [<!ENTITY a "' + "x" * 50 + '">'
    + "".join(f'<!ENTITY {new} "{("&" + old + ";") * 50}">' for old, new in zip("acdefg", "cdefgh"))
    + "]><RSLogix5000Content TargetType='Controller'><Controller Name='&h;'/></RSLogix5000Content>"
)  # fmt: skip
OUTER = (
    '<?xml version="1.0"?><!DOCTYPE b [<!ENTITY a SYSTEM "file:///etc/passwd">]>'
    "<RSLogix5000Content TargetType='Controller'><Controller Name='&a;'/></RSLogix5000Content>"
)


class Source(unittest.TestCase):
    def refused(self, data: str | bytes, why: str) -> None:
        ended = convert(data)
        self.assertEqual((ended.status, ended.project, len(ended.lines)), (2, "", 1), ended.lines)
        self.assertIn(why, ended.lines[0])

    def test_no_l5x_file(self) -> None:
        self.refused("", "the file is empty")
        self.refused(" \n", "the file is empty")
        self.refused("IE_VER := 2.19;\nCONTROLLER X", "an L5K file: save it as L5X")
        self.refused(b"PK\x03\x04abc", "a ZIP archive")
        self.refused(bytes(range(256)) * 40, "it is no XML")
        self.refused("<html><body/></html>", "its first element is html")
        self.refused("<?xml version='1.0'?><!-- nothing -->", "it ends before its first element")
        self.refused(" " * 200_000, "the file is empty")
        self.refused("<!--" + "-x" * 200_000 + "--><a/>", "bytes")
        self.refused("<RSLogix5000Content/>", "its TargetType is none")
        self.refused("<RSLogix5000Content TargetType='DataType'/>", "its TargetType is DataType")
        self.refused("<RSLogix5000Content TargetType='Program'/></x>", "cut off or damaged")

    def test_files_that_cannot_be_read(self) -> None:
        self.assertEqual(call(["/nonexistent.L5X"]).status, 2)
        self.assertEqual(call([TOOLS]).status, 2)

    def test_no_entity_is_followed(self) -> None:
        self.refused(BOMB, "it has a DTD")
        self.refused(OUTER, "it has a DTD")
        self.refused('<!DOCTYPE b SYSTEM "http://127.0.0.1:1/x.dtd"><RSLogix5000Content/>', "it has a DTD")
        self.refused(file().replace('Name="C"', 'Name="&x;"'), "undefined entity")
        self.refused(file().replace("<Tags>", "<!DOCTYPE b><Tags>"), "cut off or damaged")

    def test_byte_order_marks(self) -> None:
        self.assertEqual(convert(b"\xef\xbb\xbf" + file().encode()).status, 0)
        for form in ("utf-16-le", "utf-16-be"):
            mark = "\ufeff"
            told = mark + file().replace("UTF-8", "UTF-16")
            self.assertEqual(convert(told.encode(form)).status, 0)
            self.refused((mark + file()).encode(form), "encoding")
            self.refused(told.encode(form)[:301], "cut off or damaged")
        self.refused(file().replace("UTF-8", "UTF-16"), "encoding")
        self.refused(file().replace("UTF-8", "no-such"), "encoding")

    def test_deep_elements(self) -> None:
        self.refused(file().replace("<Tags>", "<Tags>" + "<a>" * 100_000), "deep in one another")

    def test_large_files_need_little_memory(self) -> None:
        code = (
            f"import re, sys; sys.dont_write_bytecode = True; sys.path.insert(0, {TOOLS!r})\n"
            "from lib.l5x.main import main\n"
            "status = main(sys.argv[1:], '/nonexistent')\n"
            # (what getrusage tells begins with the most that the process had which started this one)
            "most = re.search(r'VmHWM:\\s*(\\d+)', open('/proc/self/status').read())[1]\n"
            "print(status, most, file=sys.stderr)\n"
        )
        # 50 MB: tags with their values in three forms, as the export has them.
        listed, raw = "16#0000_0000," * 12_000, "00 00 00 00 " * 12_000
        raw = f'<Data Format="L5K"><![CDATA[[{listed}0]]]></Data><Data>{raw}</Data>'
        elements = "".join(f'<Element Index="[{k}]" Value="0"/>' for k in range(250))
        decorated = f'<Data Format="Decorated"><Array DataType="DINT" Dimensions="250">{elements}</Array></Data>'
        body = f'TagType="Base" DataType="DINT" Dimensions="250">{raw}{decorated}</Tag>'
        front, back = file().split("<Tags></Tags>", 1)
        with tempfile.TemporaryDirectory() as folder:
            path = os.path.join(folder, "large.L5X")
            with open(path, "w", encoding="ascii") as large:
                large.write(front + "<Tags>")
                for k in range(50_000_000 // len(body) + 1):
                    large.write(f'<Tag Name="Tag{k}" {body}')
                large.write("</Tags>" + back)
            self.assertGreater(os.path.getsize(path), 50_000_000)
            done = subprocess.run([sys.executable, "-c", code, path], capture_output=True, text=True, timeout=300)
            status, memory = done.stderr.split()[-2:]
            self.assertEqual(status, "0", done.stderr[-300:])
            self.assertLess(int(memory), 80_000)
            self.assertGreater(len(json.loads(done.stdout)["tags"]), 150)
            os.truncate(path, 50_000_000)
            self.assertEqual(call([path]).status, 2)
            with open(path, "r+b") as large:
                large.write(b"x")
            self.assertEqual(call([path]).status, 2)


if __name__ == "__main__":
    unittest.main()
