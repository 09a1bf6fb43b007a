"""What tools/assemble and tools/explain share: the registers, the kinds of records, and how a number is written."""

# Offsets as in document 01. The odd offset above is the high byte.
REGISTERS = {
    'TCR': 0, 'TSR': 2, 'TSDB': 4, 'TSBC': 6, 'TSBA': 8, 'TMMR': 10, 'TSCRC': 12,
    'RCR': 16, 'RSR': 18, 'RDDB': 20, 'RDBC': 22, 'RDBA': 24, 'RDCRC': 26,
}

# The names of single bits, from bit 0 on. Fields of several bits are in FIELDS.
BITS = {
    'TCR': ['ST TXM', 'TX INIT', 'INH ADI', 'DT O RDY', 'EA 16', 'EA 17', 'IE', 'RD SILO',
            None, None, None, None, None, 'SND WD', 'TX NPR', 'RIB'],
    'TSR': [None, None, None, None, 'TBS BSY', 'SORE', 'BUSY', 'SUC TXF',
            'DTIRDY', 'OVERUN', 'TIM OUT', 'MST DWN', 'TXM ERR', 'MEM OFL', 'NXL', 'ERR'],
    'TMMR': [None, None, None, None, None, None, None, None,
             'MASTER', 'SEC', 'NOW MST', 'CHN OPN', 'AUT ADR', 'CLR ADR', 'AIP RDY', 'AOP RDY'],
    'RCR': ['RCV DAT', 'RC INIT', 'INH ADI', 'DTIRDY', 'EA 16', 'EA 17', 'IE', 'LD SILO',
            None, None, None, None, None, 'RCV WD', 'RC NPR', 'REJ'],
    'RSR': [None, None, None, None, 'CHN OPN', 'RECOM', 'BUSY', 'SUC TXF',
            'DTORDY', 'BC OFL', 'TIM OUT', 'PAR', 'TXM ERR', 'MEM OFL', 'NXL', 'ERR'],
}

# Register: (name, lowest bit, width, in binary).
FIELDS = {
    'TCR': [('DC', 8, 5, False)],
    'TSR': [('RSP A', 0, 2, True), ('RSP B', 2, 2, True)],
    'TMMR': [('TXM AD', 0, 5, False)],
    'RCR': [('IB', 8, 5, False)],
    'RSR': [('RSP A', 0, 2, True), ('RSP B', 2, 2, True)],
}

# The kinds of records: their names in a text, and the bytes of each field of a body. A fit has a form of its own.
FIT, WRITE, READ, SLICE, MOVE, PERIOD, RESET, BYTE, LEVEL = range(1, 10)
NAMES = ['fit', 'write', 'read', 'slice', 'move', 'period', 'reset', 'byte', 'level']
FORMS = {
    WRITE: [('unit', 1), ('register', 1), ('word', 2)],
    READ: [('unit', 1), ('register', 1)],
    SLICE: [('mask', 2), ('parity', 1)],
    MOVE: [('unit', 1), ('side', 1)],
    PERIOD: [('unit', 1)],
    RESET: [('unit', 1)],
    BYTE: [('unit', 1), ('register', 1), ('byte', 1)],
    LEVEL: [('unit', 1), ('side', 1)],
}
SIDES = ['T', 'R']


def register_text(offset):
    """The register at an offset as a text writes it: its name, with +1 for its high byte; else the offset, in octal."""
    for name, at in REGISTERS.items():
        if offset - at in (0, 1):
            return name + ('+1' if offset > at else '')
    return '%o' % offset


def bit_names(name, word):
    """What is set in a register's word, by the manual's names; None where the register is a whole word."""
    if name not in BITS:
        return None
    said = ['%s %s' % (field, format(value, '0%db' % width if binary else 'o'))
            for field, low, width, binary in FIELDS[name] if (value := word >> low & (1 << width) - 1)]
    return said + [bit for k, bit in enumerate(BITS[name]) if bit and word >> k & 1]
