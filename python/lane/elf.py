"""A linked RV32 program as an image, with its symbols and what looks wrong in it."""
import collections
import difflib
import itertools
import struct

from .command import encoded, quoted
from .library import MAX_EVENTS, MAX_IMAGE_BYTES, MAX_INPUT_IMAGE_BYTES, MEMORY_END as END, MEMORY_START as BASE

MAGIC = b'\x7fELF'
COUNT_BYTES, EVENT_BYTES = 4, 12  # in memory
OBJECT, FUNCTION = 1, 2  # kinds of symbols
LOADABLE, DYNAMIC, INTERPRETER = 1, 2, 3  # kinds of segments
SYMBOL_TABLE, NO_BYTES, CONSTRUCTORS, RELOCATIONS = 2, 8, (14, 16), {4: 12, 9: 8, 19: 4}  # kinds of sections; an entry's bytes
ALLOCATED = 2  # a flag of sections
RVE, KNOWN_FLAGS = 0x08, 0xFF00001F  # the ELF's flags; bits 5 to 23 are reserved
COMPILE = 'compile with -march=rv32imc -mabi=ilp32'
MACHINES = {3: 'x86', 40: 'Arm', 62: 'x86-64', 183: 'AArch64'}
KINDS = {0: 'ELF type 0, none', 1: 'an object file: link it first',
         3: 'position-independent (PIE) or a shared object: nobody applies its relocations, so link it at fixed addresses, with -no-pie',
         4: 'a core dump'}

Header = collections.namedtuple('Header', 'phoff shoff flags ehsize phentsize phnum shentsize shnum shstrndx')
Segment = collections.namedtuple('Segment', 'physical contents virtual size executable sections')
Section = collections.namedtuple('Section', 'name kind flags address offset size link info alignment stride')
Symbol = collections.namedtuple('Symbol', 'address size kind')
# the addresses of entry, event count and events; untried is what a run tells better, where there is one
Program = collections.namedtuple('Program', 'image addresses functions warnings untried copied')


class Unfit(Exception):
    """Why the ELF can't be packed."""


def span(start, size):
    return f'{start:08X} to {start + size - 1:08X}'


def piece(elf, offset, size, what):
    if offset + size > len(elf):
        raise Unfit(f'cut short: {what} would end at byte {offset + size:,} of {len(elf):,}')
    return elf[offset:offset + size]


def table(elf, layout, offset, stride, count, what):
    """The entries of a table of the file, each read by the layout."""
    size = struct.calcsize(layout)
    if count and stride < size:
        raise Unfit(f'damaged: entries of {what} have {stride} bytes, not {size}')
    whole = piece(elf, offset, stride * count, what)
    return [struct.unpack_from(layout, whole, stride * k) for k in range(count)]


def check_kind(elf):
    """A linked program for RV32 at fixed addresses, by the ELF's header."""
    if elf[:4] != MAGIC:
        raise Unfit('not an ELF file')
    bits, order = piece(elf, 4, 2, 'the ELF header')
    if bits != 1:
        raise Unfit(f'not RV32: ELF class {bits}{" (64-bit)" if bits == 2 else ""}, expected 1 (32-bit): {COMPILE}')
    if order != 1:
        raise Unfit(f'not RV32: byte order {order}{" (big-endian)" if order == 2 else ""}, expected 1 (little-endian): {COMPILE}')
    kind, machine = struct.unpack('<HH', piece(elf, 16, 4, 'the ELF header'))
    if machine != 243:
        named = f' ({MACHINES[machine]})' if machine in MACHINES else ''
        raise Unfit(f'not RV32: ELF machine {machine}{named}, expected 243 (RISC-V): {COMPILE}')
    if kind != 2:
        raise Unfit(f'not a linked program: {KINDS.get(kind, f"ELF type {kind}")}')
    unknown = header_of(elf).flags & ~KNOWN_FLAGS
    if unknown:
        raise Unfit(f'not RV32 as it is known here: reserved flags 0x{unknown:x} in the ELF header')


def header_of(elf):
    return Header(*struct.unpack('<IIIHHHHHH', piece(elf, 28, 24, 'the ELF header')))


def entry_of(elf):
    """The ELF's own entry, as a word of the command line."""
    check_kind(elf)
    start, = struct.unpack('<I', piece(elf, 24, 4, 'the ELF header'))
    if not BASE <= start < END:
        raise Unfit(f"the ELF's entry, {start:08x}, lies outside memory: name one with --entry")
    return f'0x{start:08x}'


def sections_of(elf, header):
    """The section headers, with names as bytes: those that have one and can be read."""
    rows = [Section(*row) for row in table(elf, '<10I', header.shoff, header.shentsize, header.shnum, 'the section headers')]
    at = rows[header.shstrndx].offset if header.shstrndx < len(rows) else len(elf)
    return [row._replace(name=elf[at + row.name:].split(b'\0', 1)[0] if at else b'') for row in rows]


def program_headers(elf, header):
    return table(elf, '<8I', header.phoff, header.phentsize, header.phnum, 'the program headers')


def check_static(elf, header, sections):
    """What the linker left is what runs: there is nothing that a loader would do first."""
    for kind, *_ in program_headers(elf, header):
        if kind in (DYNAMIC, INTERPRETER):
            raise Unfit('dynamically linked: nobody loads its libraries or applies its relocations, so link it with -static -no-pie')
    for section in sections:
        if section.kind in RELOCATIONS and section.flags & ALLOCATED and section.size:
            count = section.size // (section.stride or RELOCATIONS[section.kind]) or 1
            raise Unfit(f'{count:,} relocation{"s" if count > 1 else ""} at {span(section.address, section.size)} that nobody has applied: '
                        'link it at fixed addresses, with -static -no-pie')


def section_names(sections, start, size):
    """In brackets, the sections with bytes of a segment."""
    names = [quoted(section.name) for section in sections if section.flags & ALLOCATED and section.kind != NO_BYTES
             and section.size and start <= section.address < start + size]
    return f' ({", ".join(names)})' if names else ''


def segments(elf, header, sections):
    """The loadable segments that take up memory."""
    found = []
    for kind, offset, virtual, physical, in_file, in_memory, flags, _ in program_headers(elf, header):
        if kind == LOADABLE and in_memory:
            if in_file > in_memory:
                raise Unfit(f'damaged: the segment at {virtual:08X} has more bytes in the file than in memory')
            contents = piece(elf, offset, in_file, f'the segment at {virtual:08X}')
            found.append(Segment(physical, contents, virtual, in_memory, flags & 1, section_names(sections, virtual, in_file)))
    return found


def copied(loaded):
    """The segments whose bytes lie elsewhere than where they are used, until start-up code copies them."""
    return [segment for segment in loaded if segment.contents and segment.virtual != segment.physical]


def check_copied(loaded):
    for segment in copied(loaded):
        raise Unfit(f'segment {span(segment.virtual, len(segment.contents))}{segment.sections} is loaded at {segment.physical:08X}, and the run would '
                    'find zeros where start-up code copies it to: keep such data constant (const), or name start-up code that copies it as the '
                    'entry, and say so with --startup')


def check_ranges(ranges):
    """Ranges (start, size) lie in memory and share no byte."""
    for start, size in ranges:
        if start < BASE or start + size > END:
            hint = ' (ld -n keeps the ELF header out of it)' if start < BASE < start + size else ''
            raise Unfit(f'segment {span(start, size)} lies outside memory, {span(BASE, END - BASE)}{hint}')
    ordered = sorted(ranges)
    for low, high in zip(ordered, ordered[1:]):
        if sum(low) > high[0]:
            raise Unfit(f'segments {span(*low)} and {span(*high)} overlap')


def image_of(loaded):
    """The image's bytes; all that the segments take up lies in memory, and only once."""
    filled = [segment for segment in loaded if segment.contents]
    if not filled:
        raise Unfit('nothing to load: no loadable segment holds bytes (is it linked?)')
    check_ranges([(segment.virtual, segment.size) for segment in loaded])
    check_ranges([(segment.physical, len(segment.contents)) for segment in filled])
    size = max(segment.physical + len(segment.contents) for segment in filled) - BASE
    if size > MAX_IMAGE_BYTES:
        raise Unfit(f'image too large: {size:,} bytes, a run takes at most {MAX_IMAGE_BYTES:,}')
    image = bytearray(size)
    for segment in filled:
        at = segment.physical - BASE
        image[at:at + len(segment.contents)] = segment.contents
    return bytes(image)


def symbols(elf, sections):
    """The defined symbols of the symbol table, by name."""
    found = collections.defaultdict(set)
    for held in (section for section in sections if section.kind == SYMBOL_TABLE):
        if held.link >= len(sections) or not held.stride:
            raise Unfit('damaged: the symbol table names no string table or no entry size')
        names = piece(elf, sections[held.link].offset, sections[held.link].size, 'the string table') + b'\0'
        for name, value, extent, info, _, section in table(elf, '<IIIBBH', held.offset, held.stride, held.size // held.stride, 'the symbol table'):
            if section:
                found[names[name:names.find(b'\0', name)]].add(Symbol(value, extent, info & 15))
    return found


def missing(word, role, known):
    """No symbol has this name; names that are like it, if any."""
    if not known:
        return f'no symbol {quoted(word)} ({role}): there is no symbol table, so give addresses'
    near = difflib.get_close_matches(quoted(word), map(quoted, known), 3)
    return f'no symbol {quoted(word)} ({role})' + (f': did you mean {" or ".join(near)}?' if near else '')


def symbol_of(word, role, known):
    """What a word of the command line stands for, in memory. Of an address the symbol that stands there, if any."""
    if word[:1].isdigit():
        address = int(word, 16)
        found = [symbol for named in known.values() for symbol in named if symbol.address == address]
    else:
        found = known.get(encoded(word))
        if not found:
            raise Unfit(missing(word, role, known))
        addresses = sorted({symbol.address for symbol in found})
        if len(addresses) > 1:
            raise Unfit(f'symbol {quoted(word)} ({role}) has {len(addresses)} addresses, so give one: '
                        + ', '.join(f'0x{address:08X}' for address in addresses))
        address, = addresses
    if not BASE <= address < END:
        raise Unfit(f'{role} {quoted(word)} at {address:08X} lies outside memory, {span(BASE, END - BASE)}')
    return max(found, key=lambda symbol: symbol.size, default=Symbol(address, 0, 0))


def functions(known):
    """The functions that have a size: address, size and quoted name, in order."""
    return sorted((symbol.address, symbol.size, quoted(name)) for name, named in known.items()
                  for symbol in named if symbol.kind == FUNCTION and symbol.size)


def entry_misfit(symbol, image_end, known):
    if symbol.kind == OBJECT:
        return 'is data, not a function'
    if symbol.address >= image_end:
        return f'is not in the image, {span(BASE, image_end - BASE)}: there is nothing to execute'
    for address, size, name in functions(known):
        if address < symbol.address < address + size:
            return f'is not a function: it lies inside {name}, {span(address, size)}'
    return None


def misfit(role, symbol, image_end, known):
    """Why a symbol does not look like its role, or None. A plain label has neither kind nor size, and passes."""
    if role == 'entry':
        return entry_misfit(symbol, image_end, known)
    if symbol.kind == FUNCTION:
        return 'is a function, not data'
    if symbol.address < image_end:
        return f'is in the image, {span(BASE, image_end - BASE)}: a store there is refused (11)'
    if role == 'event count' and symbol.size not in (0, COUNT_BYTES):
        return f'has {symbol.size:,} bytes, not {COUNT_BYTES}: one SW of the whole count counts an event'
    if role == 'events' and (symbol.size % EVENT_BYTES or symbol.size > EVENT_BYTES * MAX_EVENTS):
        return f'has {symbol.size:,} bytes: an event has {EVENT_BYTES}, and at most {MAX_EVENTS} are read'
    return None


def role_warnings(words, found, image_end, known):
    """The symbols that do not look like their roles; where they do in another order, only that."""
    wrong = {role: why for role in found if (why := misfit(role, found[role], image_end, known))}
    for order in itertools.permutations(found) if wrong else ():
        if not any(misfit(role, found[given], image_end, known) for role, given in zip(found, order)):
            return ['symbols exchanged? They look like ' + ', '.join(f'{role} {quoted(words[given])}' for role, given in zip(found, order))]
    return [f'{role} {quoted(words[role])} at {found[role].address:08X} {why}' for role, why in wrong.items()]


def instructions(code):
    """Each instruction's place and word, one after the other."""
    at = 0
    while at + 2 <= len(code):
        size = 4 if code[at] & 3 == 3 else 2
        yield at, int.from_bytes(code[at:at + size], 'little')
        at += size


def refused_name(word):
    """The name of an instruction that compilers and start-up code bring in and every run refuses (9), or None."""
    opcode, funct3 = word & 0x7F, word >> 12 & 7
    if opcode == 0x73 and funct3:
        return 'a CSR instruction'
    if opcode == 0x2F:
        return 'an atomic instruction'
    return {0x00000073: 'ECALL', 0x00100073: 'EBREAK', 0x9002: 'EBREAK'}.get(word)


def code_of(loaded, known):
    """What is code, as (address, bytes, name): functions' bodies or, where no function has a size, the executable segments."""
    if not functions(known):
        yield from ((segment.virtual, segment.contents, '') for segment in loaded if segment.executable)
    end = 0
    for address, size, name in functions(known):
        for segment in loaded:
            if end <= address and segment.virtual <= address < segment.virtual + len(segment.contents):
                yield address, segment.contents[address - segment.virtual:][:size], f' in {name}'
                end = address + size


def code_warnings(loaded, known):
    """One line for each instruction that every run refuses: its first place, and how many more there are."""
    places = collections.defaultdict(list)
    for address, code, name in code_of(loaded, known):
        for at, word in instructions(code):
            if refused_name(word):
                places[refused_name(word)].append(f'{address + at:08X}{name}')
    return [f'{name} at {found[0]}{f" and {len(found) - 1:,} more" if found[1:] else ""}: the run refuses it (9)'
            for name, found in places.items()]


def odd_warnings(known):
    """One line for the functions at odd addresses, of which a jump clears the last bit."""
    odd = sorted((symbol.address, quoted(name)) for name, named in known.items()
                 for symbol in named if symbol.kind == FUNCTION and symbol.address & 1)
    return [f'function {odd[0][1]} at {odd[0][0]:08X}{f" and {len(odd) - 1:,} more" if odd[1:] else ""}: an odd address, where no jump leads; '
            'link code before constants, as examples/firmware/firmware.ld does'] if odd else []


def kind_warnings(header, sections, startup):
    told = []
    for section in () if startup else sections:
        if section.kind in CONSTRUCTORS and section.flags & ALLOCATED and section.size:
            told.append(f'constructors at {span(section.address, section.size)}: the run does not call them, unless the entry is start-up code '
                        'that does (--startup)')
    if header.flags & RVE:
        told.append('made for RV32E: the run has x0 to x31, and accepts x16 to x31 where an RV32E controller would not')
    return told


def load(elf, entry, event_count, events, startup=False):
    """A program that can be run. The symbols are names or addresses, the entry may be None for the ELF's own; with startup the entry is
    start-up code, which finds bytes where they are loaded and copies them to where they are used."""
    check_kind(elf)
    header = header_of(elf)
    sections = sections_of(elf, header)
    check_static(elf, header, sections)
    loaded = segments(elf, header, sections)
    if not startup:
        check_copied(loaded)
    image = image_of(loaded)
    known = symbols(elf, sections)
    words = {'entry': entry or entry_of(elf), 'event count': event_count, 'events': events}
    found = {role: symbol_of(word, role, known) for role, word in words.items()}
    warnings = [*kind_warnings(header, sections, startup), *role_warnings(words, found, BASE + len(image), known), *odd_warnings(known)]
    return Program(image, [symbol.address for symbol in found.values()], functions(known), warnings, code_warnings(loaded, known),
                   [(segment.virtual, segment.contents) for segment in copied(loaded)])


def pack(elf, entry, event_count, events, startup=False):
    """lane-run's input and warnings."""
    program = load(elf, entry, event_count, events, startup)
    warnings = program.warnings + program.untried
    if len(program.image) > MAX_INPUT_IMAGE_BYTES:
        warnings.insert(0, f'image of {len(program.image):,} bytes: the program lane-run refuses (1) more than {MAX_INPUT_IMAGE_BYTES:,}')
    return struct.pack('<3I', *program.addresses) + program.image, warnings
