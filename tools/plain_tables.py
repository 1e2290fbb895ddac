"""The table of a call's data files, or its first refusal, by the rules of docs/LANGUAGE.md ("The data files"). A part of plain.py."""
from plain_syntax import Refused



def records_of(data):
    """The records of a CSV file, each a list of fields, as the kit's csv reads them."""
    if data.startswith(b"\xef\xbb\xbf"):
        data = data[3:]
    records, record, field, state = [], [], bytearray(), "record"
    for byte in data:
        ends = byte in (10, 13)
        if state == "record" and ends:
            continue
        if state in ("record", "field"):
            state = "plain"
            if byte == 34:
                state = "quoted"
                continue
        elif state == "quoted":
            if byte == 34:
                state = "quote"
            else:
                field.append(byte)
            continue
        elif state == "quote" and byte == 34:
            field.append(byte)
            state = "quoted"
            continue
        if byte == 44 or ends:
            record.append(bytes(field))
            field = bytearray()
            state = "field"
            if ends:
                records.append(record)
                record, state = [], "record"
        else:
            field.append(byte)
            state = "plain"
    if state != "record":
        records.append(record + [bytes(field)])
    return records


def is_text(field):
    try:
        field.decode()
        return True
    except UnicodeDecodeError:
        return False


def table_of(names, read):
    """The header and the rows of the data files; raises the first refusal."""
    header, rows, fields = None, [], 0
    for number, name in enumerate(names, 1):
        before = "data" if len(names) == 1 else f"data file {number}"
        data = read(name)
        if len(data) > 67_108_864:
            raise Refused(f"{before}: over 67108864 bytes")
        records = records_of(data)
        if not records:
            raise Refused(f"{before}: no header")
        for place, record in enumerate(records, 1):
            fields += len(record)
            if not all(map(is_text, record)):
                raise Refused(f"{before}: record {place}: not UTF-8")
            if place == 1 and number > 1 and record != header:
                differs = [a == b for a, b in zip(record, header)] + [False]
                raise Refused(f"{before}: header differs at field {differs.index(False) + 1}")
            if place > 1 and len(record) != len(records[0]):
                raise Refused(f"{before}: record {place}: {len(record)} fields, header has {len(records[0])}")
            if place == 1 and number == 1 and len(record) > 1024:
                raise Refused(f"{before}: {len(record)} columns, at most 1024")
            if fields > 16_777_216:
                raise Refused(f"{before}: over 16777216 fields")
        header = records[0]
        rows += records[1:]
    return header or [], rows
