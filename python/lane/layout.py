"""What an ELF says of its code: which addresses are data, and the architecture that it was compiled for."""
import collections
import struct

from . import elf
from .command import quoted
from .library import MEMORY_END, MEMORY_START

EXECUTABLE = 4  # a flag of sections
ATTRIBUTES = 0x70000003  # the kind of .riscv.attributes
ARCHITECTURE = 5  # the tag of its string

# code and objects are (start, end, name); arch is as rv32i2p1_m2p0_c2p0, or '' where nothing says it
Layout = collections.namedtuple('Layout', 'code objects arch image_end')


def layout(firmware):
    """What is known of a firmware's places; little of a packed input, or of a damaged table."""
    end = MEMORY_START + len(firmware.image)
    if not firmware.elf:
        return Layout([], [], '', end)
    try:
        found = elf.sections_of(firmware.elf, elf.header_of(firmware.elf))
        known = elf.symbols(firmware.elf, found)
    except (elf.Unfit, struct.error):
        return Layout([], [], '', end)
    code = [(one.address, one.address + one.size, quoted(one.name)) for one in found if one.flags & elf.ALLOCATED and one.flags & EXECUTABLE]
    objects = sorted((symbol.address, symbol.address + symbol.size, quoted(name)) for name, named in known.items()
                     for symbol in named if symbol.kind == elf.OBJECT and symbol.size)
    notes = next((firmware.elf[one.offset:one.offset + one.size] for one in found if one.kind == ATTRIBUTES), b'')
    return Layout(code, objects, architecture(notes), end)


def architecture(notes):
    """The string of the tag, from a section of attributes whose only maker is riscv."""
    start = notes.find(b'riscv\0')
    if notes[:1] != b'A' or start != 5:
        return ''
    at = start + len(b'riscv\0') + 5  # past the tag of the whole file, and its size
    while at < len(notes):
        tag, at = uleb128(notes, at)
        if tag & 1:
            end = notes.find(b'\0', at)
            if tag == ARCHITECTURE:
                return notes[at:end].decode('ascii', errors='replace') if end >= 0 else ''
            at = end + 1 if end >= 0 else len(notes)
        else:
            _, at = uleb128(notes, at)
    return ''


def uleb128(notes, at):
    value = shift = 0
    while at < len(notes):
        byte, at = notes[at], at + 1
        value, shift = value | (byte & 127) << shift, shift + 7
        if byte < 128:
            break
    return value, at


def holder(ranges, address):
    return next((name for start, end, name in ranges if start <= address < end), None)


def data_at(firmware, known, address, written):
    """What lies at an address that is no code, in words, or None where it is code or can't be told. written holds the bytes that were
    stored."""
    if not MEMORY_START <= address < MEMORY_END:
        return 'a place outside memory'
    if address >= known.image_end:
        return None if address in written else 'zeros past the image'
    if holder(known.objects, address):
        return f'the data of {holder(known.objects, address)}'
    if known.code and holder(known.code, address) is None:
        return 'what no executable section holds'
    at = address - MEMORY_START
    inside = any(start <= address < start + size for start, size, _ in firmware.functions)
    return 'zeros between functions' if firmware.functions and not inside and not any(firmware.image[at:at + 2]) else None
