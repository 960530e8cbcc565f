"""The words of faults by their class, as the program's table has them (crates/fetcher/src/fault_kind.rt)."""
import os
import re

TABLE = os.path.join(os.path.dirname(os.path.abspath(__file__)), "../crates/fetcher/src/fault_kind.rt")
ROW = re.compile(r'kind: FaultKind::\w+,\s*word: "([^"]+)",\s*class: FaultClass::(\w+),')
with open(TABLE, encoding="utf-8") as text:
    ROWS = ROW.findall(text.read())
WORDS = tuple(word for word, _ in ROWS)
NETWORK = tuple(word for word, of in ROWS if of == "Network")
PROTOCOL = tuple(word for word, of in ROWS if of == "Protocol")
