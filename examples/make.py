#!/usr/bin/env python3
"""Writes the example recordings of this folder, byte by byte as docs/RECORDING.md has them."""
from pathlib import Path

HERE = Path(__file__).parent


def recording(guest, mark, image, events, last):
    """A recording: events are (major, minor, kind, data), last is (major, minor)."""
    def code(major, minor):
        return major.to_bytes(4, "big") + minor.to_bytes(4, "big")

    length = 21 + len(image) + 10 * len(events)
    file = bytes([1]) + length.to_bytes(4, "big") + bytes([guest, mark]) + len(image).to_bytes(4, "big")
    file += image + len(events).to_bytes(2, "big")
    for major, minor, kind, data in events:
        file += code(major, minor) + bytes([kind, data])
    return file + code(*last)


def mos6502(place, stack, status, rom):
    """A 6502 image: rom maps addresses from F800h to FFFFh to their bytes."""
    image = bytearray(4106)
    image[3], image[4] = stack, status
    image[5:7] = place.to_bytes(2, "big")
    for start, text in rom.items():
        data = bytes.fromhex(text)
        at = 10 + 2048 + start - 0xF800
        image[at:at + len(data)] = data
    return bytes(image)


NINE_UNITS = mos6502(0xF800, 0xFF, 0x24, {
    0xF800: "A9 01 8D 00 D0 58 EA 4C 06 F8",
    0xF820: "AD 01 D0 8D 00 D0 40",
    0xFFFE: "20 F8",
})

if __name__ == "__main__":
    (HERE / "nine-units.rec").write_bytes(recording(1, 2, NINE_UNITS, [(1, 63494, 2, 5)], (3, 63494)))
