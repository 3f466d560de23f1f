"""Each block of C in the page stands in one of the folder's files, word for word."""
import pathlib
import re
import sys

page = open(sys.argv[1]).read()
files = [it.read_text() for it in pathlib.Path(sys.argv[2]).iterdir() if it.suffix in (".c", ".h")]
blocks = re.findall(r"```c\n(.*?)```", page, re.S)
assert blocks, "no code in the page"
for block in blocks:
    assert any(block in it for it in files), "not in the folder:\n" + block
print(len(blocks), "blocks")
