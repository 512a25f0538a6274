#!/usr/bin/env python3
"""What the program `vectors` must print, worked out from documents 01 and 02 with Python's own CRC-16 (polynomial 1021, start 0) and calendar.

    python3 tests/vectors.py > crates/vectors/stdout
"""
from binascii import crc_hqx
from datetime import datetime, timedelta
from struct import pack, unpack_from

UNUSED = 0xFFFFFFFF
PRIME = 2**32 - 5


def descriptor(identifier, body, location):
    """The 2048 bytes of a descriptor (ECMA-167 3/7.2): its tag with both sums, its body, and zeros."""
    tag = pack("<HHBBHHHI", identifier, 2, 0, 0, 0, crc_hqx(body, 0), len(body), location)
    tag = tag[:4] + bytes([sum(tag) % 256]) + tag[5:]
    return (tag + body).ljust(2048, b"\0")


def file_entry(block, file_type, flags, permissions, links, information, blocks, behind, attributes=b"", stamp=bytes(12)):
    """A file entry (ECMA-167 4/14.9) as the station records it, with a table or allocation descriptors behind its attributes."""
    head = pack("<IHHHBB6xH", 0, 4, 0, 1, 0, file_type, flags)
    head += pack("<IIIHBBI", UNUSED, UNUSED, permissions, links, 0, 0, 0)
    head += pack("<QQ", information, blocks)
    head += 3 * stamp
    head += pack("<I", 1)
    head += bytes(16)
    head += b"\0" + b"*Bench Station".ljust(31, b"\0")
    head += pack("<QII", 0, len(attributes), len(behind))
    assert 16 + len(head) == 176
    return descriptor(261, head + attributes + behind, block)


def table_bytes(entries, previous):
    """The bytes of a table (document 01, 'The table sector at block b'): its entries, the regid and the previous table."""
    table = b"".join(pack("<I", e) for e in entries)
    return table + b"\0" + b"*UDF Virtual Alloc Tbl\0" + bytes([0x50, 0x01]) + bytes(6) + pack("<I", previous)


def table_sector(entries, previous, block, attributes=b"", stamp=bytes(12)):
    """The 2048 bytes that commit records (document 01, 'The table sector at block b', and document 02, R-3), or the same with attributes before the table."""
    table = table_bytes(entries, previous)
    return file_entry(block, 0, 3, 0, 0, len(table), 0, table, attributes, stamp)


def own_parts(entries, previous):
    """What each sector of a table's own holds of its bytes (document 02, R-8): as much as there is room for. Up to 458 entries stay in the ICB."""
    if len(entries) <= 458:
        return []
    table = table_bytes(entries, previous)
    return [table[at:at + 2048] for at in range(0, len(table), 2048)]


def large_icb(entries, previous, blocks, block):
    """The ICB of a table in sectors of its own (document 02, R-8): allocation type 0, and a short allocation descriptor, length and block, for each."""
    parts = own_parts(entries, previous)
    descriptors = b"".join(pack("<II", len(part), at) for part, at in zip(parts, blocks, strict=True))
    return file_entry(block, 0, 0, 0, 0, sum(map(len, parts)), len(parts), descriptors)


def entry_sector(extents, block):
    """The entry of a run (document 02, R-6): a short allocation descriptor, length and block, for each extent."""
    descriptors = b"".join(pack("<II", *extent) for extent in extents)
    information = sum(length for length, _ in extents)
    blocks = sum(-(-length // 2048) for length, _ in extents)
    return file_entry(block, 5, 0, 0x1084, 1, information, blocks, descriptors)


def pointer_sector(main, reserve, location):
    """The Anchor Volume Descriptor Pointer that closing records (document 02, R-5)."""
    return descriptor(2, pack("<IIII", *main, *reserve).ljust(496, b"\0"), location)


def show_rows(sector):
    for at in range(0, 2048, 32):
        print(sector[at:at + 32].hex())


def show_map(entries, previous):
    print("count", len(entries), *("%08x" % e for e in entries), "previous", "%08x" % previous)


def show_large(entries):
    """The ICB at block 300,000 of a table whose own sectors lie three blocks apart from 290,000 on, and the CRC of each of these, zeros to its end."""
    parts = own_parts(entries, 123456)
    show_rows(large_icb(entries, 123456, [290000 + 3 * i for i in range(len(parts))], 300000))
    for i, part in enumerate(parts):
        print("own", i, "crc", "%04x" % crc_hqx(part.ljust(2048, b"\0"), 0))


def show_changes(sector):
    """For each byte of the body the CRCs with each of its 255 other values, in the order of the exclusive-or mask, as one number modulo a prime."""
    body = bytearray(sector[16:2044])
    for i, byte in enumerate(sector[16:2044]):
        crcs = b""
        for mask in range(1, 256):
            body[i] = byte ^ mask
            crcs += pack(">H", crc_hqx(body, 0))
        body[i] = byte
        print("byte", 16 + i, "crcs", "%08x" % (int.from_bytes(crcs, "big") % PRIME))


def show_entry(extents, block):
    """Of a run's entry what is worked out: the checksum, the CRC and its length, and the information length."""
    sector = entry_sector(extents, block)
    crc, crc_length = unpack_from("<HH", sector, 8)
    information = unpack_from("<Q", sector, 56)[0]
    print("entry of", len(extents), "at", block, "sum", "%02x" % sector[4], "crc", "%04x" % crc, "over", crc_length, "length", information)


def timestamp(when, zone=None):
    """ECMA-167 1/7.3: type 1, the zone in minutes or none, and a local time."""
    micros = when.microsecond
    fields = (when.month, when.day, when.hour, when.minute, when.second, micros // 10000, micros // 100 % 100, micros % 100)
    return pack("<HH8B", 1 << 12 | (-2047 if zone is None else zone) & 0xFFF, when.year, *fields)


def show_time(when, zone=None):
    """Minutes from 1 January 1970 UTC as 32 bits, seconds dropped first, then 1 if the zone is not given."""
    minutes = (when - timedelta(minutes=zone or 0)).replace(second=0, microsecond=0) - datetime(1970, 1, 1)
    print("stamp:", "%08x" % (minutes // timedelta(minutes=1) % 2**32), "%08x" % (zone is None))


def main():
    ramp = bytes((7 + 31 * i) % 256 for i in range(2100))
    for data in (bytes.fromhex("706a77"), bytes(2048), ramp[16:2044]):
        print("crc", "%04x" % crc_hqx(data, 0))
    for n in range(2101):
        print("length", n, "crc", "%04x" % crc_hqx(ramp[:n], 0))

    small = [0, UNUSED, 299999, 3, 65537]
    show_rows(table_sector(small, 123456, 300000))
    print("kind 1 at 300000: table")
    print("kind 1 at 300001: none")
    print("kind 2 at 300000: none")
    print("kind 1 at 300000: none")
    show_map(small, 123456)

    full = [UNUSED if i % 3 == 0 else i for i in range(458)]
    sector = table_sector(full, UNUSED, 458)
    show_rows(sector)
    print("kind 1 at 458: table")
    show_map(full, UNUSED)
    show_changes(sector)

    show_rows(table_sector(small, 123456, 300000, ramp[176:176 + 220]))
    print("kind 1 at 300000: table")
    print("kind 1 at 300001: none")
    print("kind 2 at 300000: none")
    print("kind 1 at 300000: none")
    show_map(small, 123456)
    print("kind 1 at 300000: table")
    show_map(small, 123456)
    print("kind 1 at 300000: none")
    print("kind 1 at 300000: none")

    noted = datetime(2026, 11, 15, 14, 5, 9, 123456)
    show_rows(table_sector(small, 123456, 300000, stamp=timestamp(noted, 60)))
    print("kind 1 at 300000: table")
    print("kind 1 at 300001: none")
    print("kind 2 at 300000: none")
    print("kind 1 at 300000: none")
    show_map(small, 123456)
    show_time(noted, 60)

    show_time(datetime(1970, 1, 1, 0, 30), 60)
    show_time(datetime(1970, 1, 1, 0, 30))
    show_time(datetime(2099, 12, 31, 23, 59, 59), 1440)
    show_time(datetime(2099, 12, 31, 23, 59, 59), -1440)
    show_time(datetime(2000, 2, 29, 12, 0), 0)
    print("stamp: wrong")

    show_rows(pointer_sector((32768, 96), (32769, 240), 401491))
    print("tag at 1491: pointer")
    print("tag at 1490: none")
    print("tag at 401491: pointer")
    print("tag at 401492: none")
    print("tag at 1491: none")

    run = [(4096, 3), (2048, 10), (1000, 12)]
    show_rows(entry_sector(run, 20))
    print("entry at 20: run of 7144")
    print("entry at 21: none")
    # the last extent's sector is unreadable
    print("entry at 20: none")
    show_entry(run, 20)
    show_entry([(1, 0)], 1)
    words = [0xFFFFFFFF if i % 3 == 0 else i % 458 for i in range(4087)]
    show_entry(list(zip(words[:200:2], words[1:200:2])), 300000)
    show_entry([(2048 * 359998, 0), (1, 359998)], 359999)

    for n in (0, 458, 459, 503, 504, 1015, 4087):
        print("own sectors of", n, "entries:", len(own_parts(words[:n], 123456)))
    show_large(words[:459])
    show_large(words)


main()
