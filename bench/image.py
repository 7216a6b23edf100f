"""The file of an image: two segments, laid out as specs/Layout.antt of elf_image says."""
import struct

PAGE = 4096
TEXT_ADDRESS = 0x0804_8000
STACK = 67_112_960
# p_flags of a segment that may be read and run, and of one that may be written as well
READ_RUN = 5
READ_WRITE_RUN = 7


def image(text, data=bytes(4), text_flags=READ_RUN):
    """The file of the image with this text and these first bytes of its data."""
    span = -(-len(text) // PAGE) * PAGE
    memory = -(-len(data) // 4) * 4 + STACK

    def header(offset, address, size, in_memory, flags):
        return struct.pack("<8I", 1, offset, address, address, size, in_memory, flags, PAGE)

    head = b"\x7fELF" + bytes([1, 1, 1]) + bytes(9) + struct.pack("<2H", 2, 3)
    head += struct.pack("<5I", 1, TEXT_ADDRESS, 52, 0, 0) + struct.pack("<6H", 52, 32, 2, 0, 0, 0)
    head += header(PAGE, TEXT_ADDRESS, len(text), len(text), text_flags)
    head += header(PAGE + span, TEXT_ADDRESS + span, len(data), memory, 6)
    return head.ljust(PAGE, b"\0") + text.ljust(span, b"\0") + data
