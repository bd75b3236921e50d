"""Writes font programs from text: mnemonics of the manual, and numbers, which are pushed.

    assemble("1 2 SPVTL:1 5 MDRP:1F")

A number after a colon, in hexadecimal, is added to the opcode: the flags of the manual's [abcde]. `#B0` is a byte as it stands.
"""

# The first opcode of each mnemonic.
NAMES = {name: int(opcode, 16) for name, opcode in (it.split(":") for it in """
    SVTCA:00 SPVTCA:02 SFVTCA:04 SPVTL:06 SFVTL:08 SPVFS:0A SFVFS:0B GPV:0C GFV:0D SFVTPV:0E ISECT:0F SRP0:10 SRP1:11 SRP2:12
    SZP0:13 SZP1:14 SZP2:15 SZPS:16 SLOOP:17 RTG:18 RTHG:19 SMD:1A ELSE:1B JMPR:1C SCVTCI:1D SSWCI:1E SSW:1F DUP:20 POP:21 CLEAR:22
    SWAP:23 DEPTH:24 CINDEX:25 MINDEX:26 ALIGNPTS:27 UTP:29 LOOPCALL:2A CALL:2B FDEF:2C ENDF:2D MDAP:2E IUP:30 SHP:32 SHC:34 SHZ:36
    SHPIX:38 IP:39 MSIRP:3A ALIGNRP:3C RTDG:3D MIAP:3E NPUSHB:40 NPUSHW:41 WS:42 RS:43 WCVTP:44 RCVT:45 GC:46 SCFS:48 MD:49
    MPPEM:4B MPS:4C FLIPON:4D FLIPOFF:4E DEBUG:4F LT:50 LTEQ:51 GT:52 GTEQ:53 EQ:54 NEQ:55 ODD:56 EVEN:57 IF:58 EIF:59 AND:5A OR:5B
    NOT:5C DELTAP1:5D SDB:5E SDS:5F ADD:60 SUB:61 DIV:62 MUL:63 ABS:64 NEG:65 FLOOR:66 CEILING:67 ROUND:68 NROUND:6C WCVTF:70
    DELTAP2:71 DELTAP3:72 DELTAC1:73 DELTAC2:74 DELTAC3:75 SROUND:76 S45ROUND:77 JROT:78 JROF:79 ROFF:7A RUTG:7C RDTG:7D SANGW:7E
    AA:7F FLIPPT:80 FLIPRGON:81 FLIPRGOFF:82 SCANCTRL:85 SDPVTL:86 GETINFO:88 IDEF:89 ROLL:8A MAX:8B MIN:8C SCANTYPE:8D INSTCTRL:8E
    PUSHB:B0 PUSHW:B8 MDRP:C0 MIRP:E0
""".split())}


def pushed(numbers):
    """Instructions that push signed words, the last on top."""
    out = b""
    for at in range(0, len(numbers), 255):
        some = numbers[at:at + 255]
        if all(0 <= n < 256 for n in some):
            out += (bytes([0xAF + len(some)]) if len(some) <= 8 else bytes([0x40, len(some)])) + bytes(some)
        else:
            words = b"".join((n & 0xFFFF).to_bytes(2, "big") for n in some)
            out += (bytes([0xB7 + len(some)]) if len(some) <= 8 else bytes([0x41, len(some)])) + words
    return out


def assemble(text):
    """The bytes of a program."""
    out, numbers = b"", []
    for word in text.split() + [""]:
        if word.lstrip("-").isdigit():
            numbers.append(int(word))
            continue
        out, numbers = out + pushed(numbers), []
        if word.startswith("#"):
            out += bytes.fromhex(word[1:])
        elif word:
            name, _, flags = word.partition(":")
            out += bytes([NAMES[name] + int(flags or "0", 16)])
    return out


def number(value):
    """The text that leaves a number of up to 32 bits on the stack."""
    if -32768 <= value <= 32767:
        return str(value)
    high, low = value >> 15, value & 0x7FFF
    if value == -1 << 31:
        return "%s DUP ADD" % number(-1 << 30)
    return "%s 16384 MUL 8192 MUL %d ADD" % (number(high), low)
