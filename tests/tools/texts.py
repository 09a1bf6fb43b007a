"""What tests/tools/check tries: texts and records, and what is said of them."""

# Document 01's whole case.
WHOLE = 'fit 2  1 2 2  2 1 2\nbyte 0 TMMR+1 21\nslice\n'
WHOLE_BYTES = bytes.fromhex('0900010002010202020102 05000800000B11 05000400000000')
WHOLE_LINES = '1 0\n8 0\n4 0 2 0 0\n'

# Text, and the record that it is.
RECORDS = [
    ('fit 0', '03000100 00'),
    ('fit 1 37 37. 2', '06000100 01 1F2502'),
    ('fit 20 ' + '1 2 3 ' * 16, '33000100 10' + '010203' * 16),
    ('write 0 TCR 21101', '06000200 00 00 4122'),
    ('WRITE 1. rdcrc 177777', '06000200 01 1A FFFF'),
    ('write 377 377 65535.', '06000200 FF FF FFFF'),
    ('read 1 RSR', '04000300 01 12'),
    ('read 0 16', '04000300 00 0E'),
    ('slice', '05000400 0000 00'),
    ('slice 000001 1', '05000400 0100 01'),
    ('slice 177777 377', '05000400 FFFF FF'),
    ('move 0 T', '04000500 00 00'),
    ('move 17 r', '04000500 0F 01'),
    ('move 2 2', '04000500 02 02'),
    ('period 3', '03000600 03'),
    ('reset 4', '03000700 04'),
    ('byte 0 TMMR+1 21', '05000800 00 0B 11'),
    ('byte 0 TSDB 0', '05000800 00 04 00'),
    ('level 5 R', '04000900 05 01'),
    ('', ''),
    ('   # a comment alone', ''),
    ('reset 0 # and one behind a call', '03000700 00'),
    ('write 0 0 ' + '0' * 5000 + '7', '06000200 00 00 0700'),
    ('reset 0\r\nreset 1\rreset 2', '03000700 00 03000700 01 03000700 02'),
]

# Text that is refused, the column and the reason.
REFUSALS = [
    ('go 0', 1, 'no such call: go'),
    ('  go 0', 3, 'no such call: go'),
    ('+1', 1, 'no such call: +1'),
    ('fit', 4, 'fit has no count'),
    ('fit   # and no count', 4, 'fit has no count'),
    ('fit 2 1 1 2', 12, 'fit 2 takes 6. numbers after its count, not 3.'),
    ('fit 1 1 1 2 2', 13, 'fit 1 takes 3. numbers after its count, not 4.'),
    ('fit 400', 5, 'count is above 377: 400'),
    ('fit 1 1 1 256.', 11, 'address or switch is above 377: 256.'),
    ('write 0 TCR', 12, 'write takes unit register word'),
    ('write 0 TCR 1 2', 15, 'write takes unit register word'),
    ('write 0 TCS 1', 9, 'no such register: TCS'),
    ('write 0 TCR+2 1', 9, 'only +1, the high byte, may follow a register: TCR+2'),
    ('write 0 TCR+ 1', 9, 'only +1, the high byte, may follow a register: TCR+'),
    ('write 0 TCR 200000', 13, 'word is above 177777: 200000'),
    ('write 0 TCR 18', 13, 'word is no octal number, and no decimal one with a dot behind it: 18'),
    ('write 0 TCR -2', 13, 'word is no octal number, and no decimal one with a dot behind it: -2'),
    ('write 0 TCR 1.5', 13, 'word is no octal number, and no decimal one with a dot behind it: 1.5'),
    ('write 0 TCR .', 13, 'word is no octal number, and no decimal one with a dot behind it: .'),
    ('write 0 TCR ' + '7' * 5000, 13, 'word is above 177777: ' + '7' * 40 + '.. (5000 characters)'),
    ('write 0 TCR ' + '9' * 5000 + '.', 13, 'word is above 177777: ' + '9' * 40 + '.. (5001 characters)'),
    ('write 0 TCR \u0663', 13, 'word is no octal number, and no decimal one with a dot behind it: \u0663'),
    ('read 400 TCR', 6, 'unit is above 377: 400'),
    ('read 0 400', 8, 'register is above 377: 400'),
    ('read 0 +1', 8, 'no such register: +1'),
    ('read 0 t\u017fr', 8, 'no such register: t\u017fr'),
    ('read 0 \x1b[1m', 8, 'no such register: \\x1b[1m'),
    ('slice 1', 8, 'slice takes mask parity'),
    ('slice 200000 0', 7, 'mask is above 177777: 200000'),
    ('slice 0 400', 9, 'parity is above 377: 400'),
    ('move 0', 7, 'move takes unit side'),
    ('move 0 X', 8, 'side is no octal number, and no decimal one with a dot behind it: X'),
    ('period', 7, 'period takes unit'),
    ('reset 0 0', 9, 'reset takes unit'),
    ('byte 0 TCR 400', 12, 'byte is above 377: 400'),
    ('level 0', 8, 'level takes unit side'),
]

# Text, the line, and what is told of it.
TOLD = [
    ('fit 1 1 1 2', '1 7', 'set-up or parity mask breaks a rule'),
    ('write 0 TCR 160377', '2 0', 'done; writes ST TXM, TX INIT, INH ADI, DT O RDY, EA 16, EA 17, IE, RD SILO, SND WD, TX NPR, RIB'),
    ('write 0 TCR 3400', '2 0', 'done; writes DC 7'),
    ('write 0 TSBC 177772', '2 0', 'done'),
    ('write 0 TSDB 1', '2 6', 'dropped'),
    ('write 0 TMMR 10005', '2 5', 'address silo may not start; writes TXM AD 5, AUT ADR'),
    ('read 0 TSR', '3 0 65535', 'done; 177777: RSP A 11, RSP B 11, TBS BSY, SORE, BUSY, SUC TXF, DTIRDY, OVERUN, TIM OUT, MST DWN, '
                                'TXM ERR, MEM OFL, NXL, ERR'),
    ('read 0 TMMR', '3 0 65311', 'done; 177437: TXM AD 37, MASTER, SEC, NOW MST, CHN OPN, AUT ADR, CLR ADR, AIP RDY, AOP RDY'),
    ('read 0 RCR', '3 0 65535', 'done; 177777: IB 37, RCV DAT, RC INIT, INH ADI, DTIRDY, EA 16, EA 17, IE, LD SILO, RCV WD, RC NPR, REJ'),
    ('read 0 RSR', '3 0 65535', 'done; 177777: RSP A 11, RSP B 11, CHN OPN, RECOM, BUSY, SUC TXF, DTORDY, BC OFL, TIM OUT, PAR, '
                                'TXM ERR, MEM OFL, NXL, ERR'),
    ('read 0 RSR', '3 0 6', 'done; 000006: RSP A 10, RSP B 01'),
    ('read 0 RSR', '3 0 0', 'done; 000000: nothing set'),
    ('read 0 RDDB', '3 0 65', 'done; 000101'),
    ('read 0 RDDB', '3 4', 'nothing to read or move'),
    ('read 0 16', '3 2', 'no such register, or an odd offset'),
    ('slice', '4 0 31 2 3', 'done; address 37, A 10 word or CRC, B 11 acknowledge'),
    ('slice', '4 0 1 3 1', 'done; address 1, A 11 last CRC, B 01 null'),
    ('slice', '4 0 1 1 2', 'done; address 1, A 01 null, B 10 check failure'),
    ('slice', '4 0 2 0 0', 'done; address 2, A 00 off line or error, B 00 busy or off line'),
    ('slice', '4 8', 'no master'),
    ('move 0 T', '5 4', 'nothing to read or move'),
    ('move 0 T', '5 0', 'done'),
    ('move 0 T', '5 0 128', 'done; NXL, non-existent location 000200'),
    ('move 1 R', '5 0 65536', 'done; NXL, non-existent location 200000'),
    ('move 1 R', '5 0 262142', 'done; NXL, non-existent location 777776'),
    ('period 0', '6 0', 'done'),
    ('reset 20', '7 1', 'unit not fitted, or no such side'),
    ('byte 0 TMMR+1 21', '8 0', 'done; writes MASTER, AUT ADR'),
    ('byte 0 RCR 101', '8 0', 'done; writes RCV DAT, IE'),
    ('byte 0 RDDB 0', '8 3', 'no byte write there'),
    ('level 0 R', '9 0 1', 'done; stands'),
    ('level 0 T', '9 0 0', 'done; does not stand'),
    ('level 0 T', '9 9', 'state or room is bad'),
]

# Lines that no move prints, and what is said of them.
UNMOVED = [
    ('5 0 0', '1:5: `5 0 0`, for record 1, has no such address'),
    ('5 0 1', '1:5: `5 0 1`, for record 1, has no such address'),
    ('5 0 129', '1:5: `5 0 129`, for record 1, has no such address'),
    ('5 0 262143', '1:5: `5 0 262143`, for record 1, has no such numbers'),
    ('5 0 262144', '1:5: `5 0 262144`, for record 1, has no such numbers'),
    ('5 0 1000000', '1:5: `5 0 1000000`, for record 1, is no line of link'),
    ('5 4 128', '1:5: `5 4 128`, for record 1, has no such numbers'),
    ('5 0 128 0', '1:9: `5 0 128 0`, for record 1, has no such numbers'),
]

# A script that stops, and the reason.
STOPS = [
    ('01', 'a record cut short'),
    ('0300', 'a record cut short'),
    ('030006', 'a record cut short'),
    ('05000800000B', 'a record cut short'),
    ('0000', 'no such kind'),
    ('010006', 'no such kind'),
    ('03000A0000', 'no such kind'),
    ('0300000000', 'no such kind'),
    ('0300010100', 'no such kind'),
    ('020006 00', 'a period of wrong length'),
    ('04000600 0000', 'a period of wrong length'),
    ('02000100', 'a fit of wrong length'),
    ('05000100 01 0102', 'a fit of wrong length'),
    ('07000100 01 01020202', 'a fit of wrong length'),
]

# Lines that are not those of the whole case, and what is said of them, from their line on.
STRANGE = [
    ('', '1:1: record 1 of 3 has no line'),
    ('1 0\n8 0\n', '3:1: record 3 of 3 has no line'),
    ('1 0\n8 0\n4 0 2 0 0', '3:10: the last line has no end'),
    ('1 0\n8 0\n4 0 2 0', '3:9: `4 0 2 0`, for record 3, has no such numbers'),
    (WHOLE_LINES + '4 8\n', '4:1: `4 8` has no record'),
    (WHOLE_LINES + '\n', '4:1: `` has no record'),
    ('1 0\n2 0\n', '2:1: `2 0`, for record 2, is not of kind 8'),
    ('1 0\n8 0 1\n', '2:5: `8 0 1`, for record 2, has no such numbers'),
    ('1 0\n8 10\n', '2:3: `8 10`, for record 2, has no such numbers'),
    ('1 0\n8 00\n', '2:3: `8 00`, for record 2, is no line of link'),
    ('1 0\n8\n', '2:3: `8`, for record 2, has no such numbers'),
    ('1 0\n8 0\r\n', '2:3: `8 0\\r`, for record 2, is no line of link'),
    ('1 0\nstop\n', '2:1: `stop`, for record 2, is no line of link'),
    ('1 0\n8 0\n4 0 32 0 0\n', '3:5: `4 0 32 0 0`, for record 3, has no such numbers'),
    ('1 0\n8 0\n4 8 2 0 0\n', '3:5: `4 8 2 0 0`, for record 3, has no such numbers'),
    ('1 0\n8 ' + '1' * 5000 + '\n', '2:3: `8 ' + '1' * 38 + '.. (5002 characters)`, for record 2, is no line of link'),
]

# Texts that are told with their comments, the lines of their calls, and what is shown above the last line.
COMMENTED = [
    ('', '', []),
    ('reset 0', '7 1\n', ['reset 0  # 7 1         unit not fitted, or no such side']),
    ('# alone # twice\n\n  # and so\n', '', ['# alone # twice', '', '  # and so']),
    ('\ufeffreset 0#one\r\nreset 1   # zw\u00f6lf # 13\rSLICE 0 0\n\n', '7 1\n7 1\n4 8\n',
     ['reset 0  # 7 1         unit not fitted, or no such side  # one', 'reset 1  # 7 1         unit not fitted, or no such side  # zw\u00f6lf # 13',
      'slice    # 4 8         no master', '']),
]
