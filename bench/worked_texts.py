"""The printed texts of worked examples, written by hand: a module's own unit, alone and in front of a carried unit."""

# ---- the own unit of a module that defines no memory

OWN_ABBREVIATIONS = "011101030e250e13050000" "022400030e3e0b0b0b0000" "030f00030e49130000" "041301030e0000" "052e016e0e030e0000" "0605004913340c0000" "072400030e0b0b3e0b0000" "00"
OWN_ENTRIES = "49000000" "0400" "00000000" "08" "0100000000" "1c000000" "1d00" "0225000000" "0701" "0328000000" "16000000" "042c000000"
OWN_ENTRIES += "053e000000" "46000000" "063c000000" "01" "0000" "034a000000" "26000000" "075d000000" "0407" "00"
OWN_TEXTS = b"WasmtimeModuleSyntheticUnit\0wasmtime\0u8\0u8*\0WasmtimeVMContext\0set_mem\0set\0WasmtimeVMContext*\0WebAssemblyPtr\0".hex()
OWN_RELOCATIONS = """reloc 6 4 section .debug_abbrev 0
reloc 12 4 section .debug_str 0
reloc 16 4 section .debug_str 28
reloc 23 4 section .debug_str 37
reloc 30 4 section .debug_str 40
reloc 39 4 section .debug_str 44
reloc 44 4 section .debug_str 62
reloc 48 4 section .debug_str 70
reloc 61 4 section .debug_str 74
reloc 70 4 section .debug_str 93
"""

OWN_TEXT = f"""section .debug_abbrev 68
{OWN_ABBREVIATIONS}
section .debug_info 77
{OWN_ENTRIES}
{OWN_RELOCATIONS}section .debug_str 108
{OWN_TEXTS}
"""

# The same for addresses of four bytes, and with the highest byte of a number first.
FOUR_TEXT = OWN_TEXT.replace("04000000000008", "04000000000004")

BIG_ENTRIES = "00000049" "0004" "00000000" "08" "0100000000" "0000001c" "001d" "0200000025" "0701" "0300000028" "00000016" "040000002c"
BIG_ENTRIES += "050000003e" "00000046" "060000003c" "01" "0000" "030000004a" "00000026" "070000005d" "0407" "00"
BIG_TEXT = OWN_TEXT.replace(OWN_ENTRIES, BIG_ENTRIES)

# ---- that of one that defines its memory at 80

MEMORY_ABBREVIATIONS = "011101030e250e13050000" "022400030e3e0b0b0b0000" "030f00030e49130000" "041301030e0b060000" "050d00030e4913380f0000" "062e016e0e030e0000"
MEMORY_ABBREVIATIONS += "0705004913340c0000" "082400030e0b0b3e0b0000" "00"
MEMORY_ENTRIES = "57000000" "0400" "00000000" "08" "0100000000" "1c000000" "1d00" "0225000000" "0701" "0328000000" "16000000" "042c000000" "58000000"
MEMORY_ENTRIES += "053e000000" "1d000000" "50" "0645000000" "4d000000" "074a000000" "01" "0000" "0351000000" "26000000" "0864000000" "0407" "00"
MEMORY_TEXTS = b"WasmtimeModuleSyntheticUnit\0wasmtime\0u8\0u8*\0WasmtimeVMContext\0memory\0set_mem\0set\0WasmtimeVMContext*\0WebAssemblyPtr\0".hex()
MEMORY_RELOCATIONS = """reloc 6 4 section .debug_abbrev 0
reloc 12 4 section .debug_str 0
reloc 16 4 section .debug_str 28
reloc 23 4 section .debug_str 37
reloc 30 4 section .debug_str 40
reloc 39 4 section .debug_str 44
reloc 48 4 section .debug_str 62
reloc 58 4 section .debug_str 69
reloc 62 4 section .debug_str 77
reloc 75 4 section .debug_str 81
reloc 84 4 section .debug_str 100
"""

MEMORY_TEXT = f"""section .debug_abbrev 81
{MEMORY_ABBREVIATIONS}
section .debug_info 91
{MEMORY_ENTRIES}
{MEMORY_RELOCATIONS}section .debug_str 115
{MEMORY_TEXTS}
"""

# The same at 0, at the greatest offset, of which the number has five bytes, and at 80 with addresses of four bytes and the highest byte
# of a number first.
MEMORY_AT_0_TEXT = MEMORY_TEXT.replace("5800000005", "0800000005").replace("1d0000005006", "1d0000000006")

GREATEST_ENTRIES = "5b000000" "0400" "00000000" "08" "0100000000" "1c000000" "1d00" "0225000000" "0701" "0328000000" "16000000" "042c000000" "ffffffff"
GREATEST_ENTRIES += "053e000000" "1d000000" "f7ffffff0f" "0645000000" "4d000000" "074e000000" "01" "0000" "0351000000" "26000000" "0864000000" "0407" "00"
GREATEST_MEMORY_TEXT = f"""section .debug_abbrev 81
{MEMORY_ABBREVIATIONS}
section .debug_info 95
{GREATEST_ENTRIES}
reloc 6 4 section .debug_abbrev 0
reloc 12 4 section .debug_str 0
reloc 16 4 section .debug_str 28
reloc 23 4 section .debug_str 37
reloc 30 4 section .debug_str 40
reloc 39 4 section .debug_str 44
reloc 48 4 section .debug_str 62
reloc 62 4 section .debug_str 69
reloc 66 4 section .debug_str 77
reloc 79 4 section .debug_str 81
reloc 88 4 section .debug_str 100
section .debug_str 115
{MEMORY_TEXTS}
"""

BIG_MEMORY_ENTRIES = "00000057" "0004" "00000000" "04" "0100000000" "0000001c" "001d" "0200000025" "0701" "0300000028" "00000016" "040000002c" "00000058"
BIG_MEMORY_ENTRIES += "050000003e" "0000001d" "50" "0600000045" "0000004d" "070000004a" "01" "0000" "0300000051" "00000026" "0800000064" "0407" "00"
BIG_MEMORY_TEXT = MEMORY_TEXT.replace(MEMORY_ENTRIES, BIG_MEMORY_ENTRIES)

# ---- in front of carried units, whose subprograms say where the context is

CONTEXT_TEXT = b"__vmctx\0".hex()
NOWHERE = f"""section .debug_loc 16
{"00" * 16}
"""
SMALL_LINES = """section .debug_line 61
3900000004001b000000010101fb0e0d00010101010000000100000100612e63000000000000090200000000000000000301010301020f01020f000101
reloc 40 8 func 0 0
"""

# The small module: a root and a subprogram.
SMALL_TEXT = f"""section .debug_abbrev 96
{OWN_ABBREVIATIONS}01110110170000022e011101120f0000033400030e49100217000000
section .debug_info 118
{OWN_ENTRIES}250000000400440000000801000000000200000000000000001e036c0000003c000000000000000000
{OWN_RELOCATIONS}reloc 83 4 section .debug_abbrev 68
reloc 89 4 section .debug_line 0
reloc 94 8 func 0 0
reloc 104 4 section .debug_str 108
reloc 108 4 section .debug_info 60
reloc 112 4 section .debug_loc 0
{SMALL_LINES}{NOWHERE}section .debug_str 116
{OWN_TEXTS}{CONTEXT_TEXT}
"""

# A module of two of these, of which the second is for function 1.
TWO_TEXT = f"""section .debug_abbrev 192
{SMALL_TEXT.splitlines()[1] * 2}
section .debug_info 236
{OWN_ENTRIES}250000000400440000000801000000000200000000000000001e036c0000003c000000000000000000{OWN_ENTRIES.replace("040000000000", "040060000000")}250000000400a400000008013d0000000200000000000000001e036c000000b2000000100000000000
{OWN_RELOCATIONS}reloc 83 4 section .debug_abbrev 68
reloc 89 4 section .debug_line 0
reloc 94 8 func 0 0
reloc 104 4 section .debug_str 108
reloc 108 4 section .debug_info 60
reloc 112 4 section .debug_loc 0
reloc 124 4 section .debug_abbrev 96
reloc 130 4 section .debug_str 0
reloc 134 4 section .debug_str 28
reloc 141 4 section .debug_str 37
reloc 148 4 section .debug_str 40
reloc 157 4 section .debug_str 44
reloc 162 4 section .debug_str 62
reloc 166 4 section .debug_str 70
reloc 179 4 section .debug_str 74
reloc 188 4 section .debug_str 93
reloc 201 4 section .debug_abbrev 164
reloc 207 4 section .debug_line 61
reloc 212 8 func 1 0
reloc 222 4 section .debug_str 108
reloc 226 4 section .debug_info 178
reloc 230 4 section .debug_loc 16
section .debug_line 122
{SMALL_LINES.splitlines()[1] * 2}
reloc 40 8 func 0 0
reloc 101 8 func 1 0
section .debug_loc 32
{"00" * 32}
section .debug_str 116
{OWN_TEXTS}{CONTEXT_TEXT}
"""

# A subprogram `f` of a type `int`.
NAMED_TEXT = f"""section .debug_abbrev 107
{OWN_ABBREVIATIONS}01110110170000022e011101120f030e49130000033400030e491002170000042400030e000000
section .debug_info 131
{OWN_ENTRIES}320000000400440000000801000000000200000000000000001e6c00000030000000036e0000003c0000000000000000047600000000
{OWN_RELOCATIONS}reloc 83 4 section .debug_abbrev 68
reloc 89 4 section .debug_line 0
reloc 94 8 func 0 0
reloc 103 4 section .debug_str 108
reloc 112 4 section .debug_str 110
reloc 116 4 section .debug_info 60
reloc 120 4 section .debug_loc 0
reloc 126 4 section .debug_str 118
{SMALL_LINES}{NOWHERE}section .debug_str 122
{OWN_TEXTS}6600{CONTEXT_TEXT}696e7400
"""

# The same where no entry begins at the place of the type.
UNTYPED_TEXT = f"""section .debug_abbrev 98
{OWN_ABBREVIATIONS}01110110170000022e011101120f030e0000033400030e49100217000000
section .debug_info 122
{OWN_ENTRIES}290000000400440000000801000000000200000000000000001e6c000000036e0000003c000000000000000000
{OWN_RELOCATIONS}reloc 83 4 section .debug_abbrev 68
reloc 89 4 section .debug_line 0
reloc 94 8 func 0 0
reloc 103 4 section .debug_str 108
reloc 108 4 section .debug_str 110
reloc 112 4 section .debug_info 60
reloc 116 4 section .debug_loc 0
{SMALL_LINES}{NOWHERE}section .debug_str 118
{OWN_TEXTS}6600{CONTEXT_TEXT}
"""

# A subprogram of a type that it names by its place in the section, which is another in the output.
PLACED_TEXT = f"""section .debug_abbrev 105
{OWN_ABBREVIATIONS}01110110170000022e011101120f49100000033400030e491002170000042400030e000000
section .debug_info 127
{OWN_ENTRIES}2e0000000400440000000801000000000200000000000000001e79000000036c0000003c0000000000000000047400000000
{OWN_RELOCATIONS}reloc 83 4 section .debug_abbrev 68
reloc 89 4 section .debug_line 0
reloc 94 8 func 0 0
reloc 103 4 section .debug_info 121
reloc 108 4 section .debug_str 108
reloc 112 4 section .debug_info 60
reloc 116 4 section .debug_loc 0
reloc 122 4 section .debug_str 116
{SMALL_LINES}{NOWHERE}section .debug_str 118
{OWN_TEXTS}{CONTEXT_TEXT}6200
"""

# A block of code in the middle of the subprogram's.
BOUNDS_TEXT = f"""section .debug_abbrev 105
{OWN_ABBREVIATIONS}01110110170000022e011101120f0000033400030e491002170000040b001101120f000000
section .debug_info 128
{OWN_ENTRIES}2f0000000400440000000801000000000200000000000000001e036c0000003c00000000000000040500000000000000120000
{OWN_RELOCATIONS}reloc 83 4 section .debug_abbrev 68
reloc 89 4 section .debug_line 0
reloc 94 8 func 0 0
reloc 104 4 section .debug_str 108
reloc 108 4 section .debug_info 60
reloc 112 4 section .debug_loc 0
reloc 117 8 func 0 5
{SMALL_LINES}{NOWHERE}section .debug_str 116
{OWN_TEXTS}{CONTEXT_TEXT}
"""

# A block of two pieces of code.
LIST_TEXT = f"""section .debug_abbrev 103
{OWN_ABBREVIATIONS}01110110170000022e011101120f0000033400030e491002170000040b005517000000
section .debug_info 123
{OWN_ENTRIES}2a0000000400440000000801000000000200000000000000001e036c0000003c0000000000000004000000000000
{OWN_RELOCATIONS}reloc 83 4 section .debug_abbrev 68
reloc 89 4 section .debug_line 0
reloc 94 8 func 0 0
reloc 104 4 section .debug_str 108
reloc 108 4 section .debug_info 60
reloc 112 4 section .debug_loc 0
reloc 117 4 section .debug_ranges 0
{SMALL_LINES}section .debug_ranges 48
05000000000000000f000000000000000f000000000000001e0000000000000000000000000000000000000000000000
reloc 0 8 func 0 5
reloc 8 8 func 0 15
reloc 16 8 func 0 15
reloc 24 8 func 0 30
{NOWHERE}section .debug_str 116
{OWN_TEXTS}{CONTEXT_TEXT}
"""

# A variable on a frame base, over a part of its scope and over all of it; the context is in a register.
PART_TEXT = f"""section .debug_abbrev 118
{MEMORY_ABBREVIATIONS}01110110170000022e011101120f40180000033400030e4910021700000434000217000000
section .debug_info 139
{MEMORY_ENTRIES}2c0000000400510000000801000000000200000000000000001e019c03730000004a0000000000000004230000000000
{MEMORY_RELOCATIONS}reloc 97 4 section .debug_abbrev 81
reloc 103 4 section .debug_line 0
reloc 108 8 func 0 0
reloc 120 4 section .debug_str 115
reloc 124 4 section .debug_info 74
reloc 128 4 section .debug_loc 0
reloc 133 4 section .debug_loc 35
{SMALL_LINES}section .debug_loc 85
00000000000000001e0000000000000001005e000000000000000000000000000000000000000000000000140000000000000010007c0023127ed00006160cffffffff1a2200000000000000000000000000000000
reloc 0 8 func 0 0
reloc 8 8 func 0 30
reloc 35 8 func 0 0
reloc 43 8 func 0 20
section .debug_str 123
{MEMORY_TEXTS}{CONTEXT_TEXT}
"""

WHOLE_TEXT = f"""section .debug_abbrev 118
{MEMORY_ABBREVIATIONS}01110110170000022e011101120f40180000033400030e4910021700000434000218000000
section .debug_info 152
{MEMORY_ENTRIES}390000000400510000000801000000000200000000000000001e019c03730000004a0000000000000004107c0023127ed00006160cffffffff1a220000
{MEMORY_RELOCATIONS}reloc 97 4 section .debug_abbrev 81
reloc 103 4 section .debug_line 0
reloc 108 8 func 0 0
reloc 120 4 section .debug_str 115
reloc 124 4 section .debug_info 74
reloc 128 4 section .debug_loc 0
{SMALL_LINES}section .debug_loc 35
00000000000000001e0000000000000001005e00000000000000000000000000000000
reloc 0 8 func 0 0
reloc 8 8 func 0 30
section .debug_str 123
{MEMORY_TEXTS}{CONTEXT_TEXT}
"""

# A subprogram whose type is a pointer to itself, which becomes a wrapper.
WRAPPER_TEXTS = b"WebAssemblyPtrWrapper<??>\0T\0__ptr\0resolve_mem\0ptr\0operator*\0operator->\0".hex()
WRAPPER_ABBREVIATIONS = "01110110170000" "022e011101120f49130000" "033400030e491002170000" "041301030e0b0b0000" "052f00030e49130000" "060d00030e4910380b0000"
WRAPPER_ABBREVIATIONS += "072e016e0e030e49130000" "0805004913340c0000" "090f0049130000" "0a100049130000" "00"
WRAPPER_ENTRIES = "8e000000" "0400" "44000000" "08" "0100000000" "020000000000000000" "1e" "2c000000" "036c000000" "3c000000" "00000000" "00"
WRAPPER_ENTRIES += "0474000000" "04" "058e000000" "2c000000" "0690000000" "45000000" "00"
WRAPPER_ENTRIES += "0796000000" "a2000000" "8c000000" "0882000000" "01" "00" "0796000000" "a6000000" "87000000" "0882000000" "01" "00"
WRAPPER_ENTRIES += "0796000000" "b0000000" "8c000000" "0882000000" "01" "00" "00" "092c000000" "0a2c000000" "092c000000" "00"
WRAPPER_TEXT = f"""section .debug_abbrev 161
{OWN_ABBREVIATIONS}{WRAPPER_ABBREVIATIONS}
section .debug_info 223
{OWN_ENTRIES}{WRAPPER_ENTRIES}
{OWN_RELOCATIONS}reloc 83 4 section .debug_abbrev 68
reloc 89 4 section .debug_line 0
reloc 94 8 func 0 0
reloc 108 4 section .debug_str 108
reloc 112 4 section .debug_info 60
reloc 116 4 section .debug_loc 0
reloc 122 4 section .debug_str 116
reloc 128 4 section .debug_str 142
reloc 137 4 section .debug_str 144
reloc 141 4 section .debug_info 69
reloc 147 4 section .debug_str 150
reloc 151 4 section .debug_str 162
reloc 167 4 section .debug_str 150
reloc 171 4 section .debug_str 166
reloc 187 4 section .debug_str 150
reloc 191 4 section .debug_str 176
{SMALL_LINES}{NOWHERE}section .debug_str 187
{OWN_TEXTS}{CONTEXT_TEXT}{WRAPPER_TEXTS}
"""

# ---- in version 5

# The header of a unit has one byte more, so that what stands behind it does too, and references within a unit.
OWN_ENTRIES_5 = "4a000000" "0500" "01" "08" "00000000" "0100000000" "1c000000" "1d00" "0225000000" "0701" "0328000000" "17000000" "042c000000"
OWN_ENTRIES_5 += "053e000000" "46000000" "063d000000" "01" "0000" "034a000000" "27000000" "075d000000" "0407" "00"
OWN_RELOCATIONS_5 = """reloc 8 4 section .debug_abbrev 0
reloc 13 4 section .debug_str 0
reloc 17 4 section .debug_str 28
reloc 24 4 section .debug_str 37
reloc 31 4 section .debug_str 40
reloc 40 4 section .debug_str 44
reloc 45 4 section .debug_str 62
reloc 49 4 section .debug_str 70
reloc 62 4 section .debug_str 74
reloc 71 4 section .debug_str 93
"""
OWN_TEXT_5 = f"""section .debug_abbrev 68
{OWN_ABBREVIATIONS}
section .debug_info 78
{OWN_ENTRIES_5}
{OWN_RELOCATIONS_5}section .debug_str 108
{OWN_TEXTS}
"""

# A line table: the lengths around version and sizes, six parameters with the counts of operands, one directory of a path, and twice one file of a path
# and a directory.
FRONT_OF_TABLE_5 = "0500" "08" "00" "2a000000" "010101fb0e0d" "000101010100000001000001" "01011f" "01"
SMALL_TABLE_5 = "4a000000" + FRONT_OF_TABLE_5 + "00000000" "02011f020f" "02" "0100000000" "0100000000"
SMALL_TABLE_5 += "000902" "0000000000000000" "030101" "0301020f01" "020f" "000101"
TABLE_RELOCATIONS_5 = """reloc 34 4 section .debug_line_str 0
reloc 44 4 section .debug_line_str 1
reloc 49 4 section .debug_line_str 1
reloc 57 8 func 0 0
"""
SMALL_LINES_5 = f"""section .debug_line 78
{SMALL_TABLE_5}
{TABLE_RELOCATIONS_5}section .debug_line_str 5
{b"".hex()}00{b"a.c".hex()}00
"""

# Lists of a unit: their length, the version, the size of an address, no segments, no offsets; and then one that is empty.
NOWHERE_5 = "09000000" "0500" "08" "00" "00000000" "00"

# The small module with the path `/m/g.wasm`, whole: its own unit, the carried one, and one for functions without debugging information, of which it has none.
LAST_ABBREVIATIONS = "011101250e1305030e10171b0e55170000" "022400030e0b0b3e0b0000" "00"
G_ENTRIES_5 = "26000000" "0500" "01" "08" "44000000" "0100000000" "020000000000000000" "1e" "036c000000" "3d000000" "0c000000" "0000"
G_ENTRIES_5 += "3c000000" "0500" "01" "08" "60000000" "011c000000" "1d00" "74000000" "4e000000" "7b000000" "0c000000"
G_ENTRIES_5 += "027e000000" "0405" "0282000000" "0805" "0286000000" "0404" "028a000000" "0804" "00"
G_TEXT_5 = f"""section .debug_abbrev 125
{OWN_ABBREVIATIONS}01110110170000022e011101120f0000033400030e49100217000000{LAST_ABBREVIATIONS}
section .debug_info 184
{OWN_ENTRIES_5}{G_ENTRIES_5}
{OWN_RELOCATIONS_5}reloc 86 4 section .debug_abbrev 68
reloc 91 4 section .debug_line 0
reloc 96 8 func 0 0
reloc 106 4 section .debug_str 108
reloc 110 4 section .debug_info 61
reloc 114 4 section .debug_loclists 12
reloc 128 4 section .debug_abbrev 96
reloc 133 4 section .debug_str 28
reloc 139 4 section .debug_str 116
reloc 143 4 section .debug_line 78
reloc 147 4 section .debug_str 123
reloc 151 4 section .debug_rnglists 12
reloc 156 4 section .debug_str 126
reloc 163 4 section .debug_str 130
reloc 170 4 section .debug_str 134
reloc 177 4 section .debug_str 138
section .debug_line 132
{SMALL_TABLE_5}32000000{FRONT_OF_TABLE_5}0500000002011f020f0208000000000800000000
{TABLE_RELOCATIONS_5}reloc 112 4 section .debug_line_str 5
reloc 122 4 section .debug_line_str 8
reloc 127 4 section .debug_line_str 8
section .debug_line_str 15
00612e63002f6d00672e7761736d00
section .debug_rnglists 13
{NOWHERE_5}
section .debug_loclists 13
{NOWHERE_5}
section .debug_str 142
{OWN_TEXTS}{CONTEXT_TEXT}{b"g.wasm".hex()}00{b"/m".hex()}00{b"i32".hex()}00{b"i64".hex()}00{b"f32".hex()}00{b"f64".hex()}00
"""

# The block of two pieces of code: an entry for each, of a start and a length.
LIST_TEXT_5 = f"""section .debug_abbrev 103
{OWN_ABBREVIATIONS}01110110170000022e011101120f0000033400030e491002170000040b005517000000
section .debug_info 125
{OWN_ENTRIES_5}2b000000050001084400000001000000000200000000000000001e036c0000003d0000000c000000040c0000000000
{OWN_RELOCATIONS_5}reloc 86 4 section .debug_abbrev 68
reloc 91 4 section .debug_line 0
reloc 96 8 func 0 0
reloc 106 4 section .debug_str 108
reloc 110 4 section .debug_info 61
reloc 114 4 section .debug_loclists 12
reloc 119 4 section .debug_rnglists 12
{SMALL_LINES_5}section .debug_rnglists 33
1d0000000500080000000000{"07" "0500000000000000" "0a"}{"07" "0f00000000000000" "0f"}00
reloc 13 8 func 0 5
reloc 23 8 func 0 15
section .debug_loclists 13
{NOWHERE_5}
section .debug_str 116
{OWN_TEXTS}{CONTEXT_TEXT}
"""

# The variable over a part of its scope, and the context: a start and a length of each, and the length of an expression in front of it.
MEMORY_ENTRIES_5 = "58000000" "0500" "01" "08" "00000000" "0100000000" "1c000000" "1d00" "0225000000" "0701" "0328000000" "17000000" "042c000000" "58000000"
MEMORY_ENTRIES_5 += "053e000000" "1e000000" "50" "0645000000" "4d000000" "074b000000" "01" "0000" "0351000000" "27000000" "0864000000" "0407" "00"
PART_TEXT_5 = f"""section .debug_abbrev 118
{MEMORY_ABBREVIATIONS}01110110170000022e011101120f40180000033400030e4910021700000434000217000000
section .debug_info 141
{MEMORY_ENTRIES_5}2d000000050001085100000001000000000200000000000000001e019c03730000004b0000000c00000004190000000000
reloc 8 4 section .debug_abbrev 0
reloc 13 4 section .debug_str 0
reloc 17 4 section .debug_str 28
reloc 24 4 section .debug_str 37
reloc 31 4 section .debug_str 40
reloc 40 4 section .debug_str 44
reloc 49 4 section .debug_str 62
reloc 59 4 section .debug_str 69
reloc 63 4 section .debug_str 77
reloc 76 4 section .debug_str 81
reloc 85 4 section .debug_str 100
reloc 100 4 section .debug_abbrev 81
reloc 105 4 section .debug_line 0
reloc 110 8 func 0 0
reloc 122 4 section .debug_str 115
reloc 126 4 section .debug_info 75
reloc 130 4 section .debug_loclists 12
reloc 135 4 section .debug_loclists 25
{SMALL_LINES_5}section .debug_loclists 53
310000000500080000000000{"08" "0000000000000000" "1e" "01" "5e" "00"}{"08" "0000000000000000" "14" "10" "7c0023127ed00006160cffffffff1a22" "00"}
reloc 13 8 func 0 0
reloc 26 8 func 0 0
section .debug_str 123
{MEMORY_TEXTS}{CONTEXT_TEXT}
"""
