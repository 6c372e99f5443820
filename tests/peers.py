"""What tests/peers does in Python: makes captures with scapy, sends their frames, and compares a listing with tshark's reading.

peers.py make FOLDER               writes scapy-*.pcap there
peers.py up                        makes a loopback ready, with the largest packet of an Ethernet
peers.py send                      sends frames over the loopback
peers.py compare FOLDER COMMAND .. compares every capture in the folder; COMMAND lists the one on its standard input
"""

import collections
import itertools
import pathlib
import random
import re
import socket
import struct
import subprocess
import sys

SEED = 36968
SAMPLES = pathlib.Path(__file__).resolve().parent.parent / "samples"

# ---- What frames are made of


def frames():
    """Every kind of carried bytes in every kind of link frame, as bytes."""
    from scapy.all import ARP, GRE, ICMP, LLC, PPP, SNAP, TCP, UDP, Dot1AD, Dot1Q, Dot3, Ether, IP, IPOption, IPv6, PPPoE, Raw

    source, destination = "02:00:00:00:00:01", "02:00:00:00:00:02"
    chance = random.Random(SEED)

    def ether(**fields):
        return Ether(src=source, dst=destination, **fields)

    def ip(**fields):
        addresses = {"src": f"192.0.2.{chance.randrange(1, 255)}", "dst": f"198.51.100.{chance.randrange(1, 9)}"}
        return IP(**addresses, id=chance.randrange(65536), **fields)

    def esp(size=48):
        return struct.pack(">II", chance.choice([0x1F40, 0xC0FFEE00, 255]), chance.randrange(200)) + chance.randbytes(size)

    def ah(length_field=4, size=24, inner=b"\x00" * 8):
        fixed = struct.pack(">BBHII", 50, length_field, 0, chance.choice([0x2710, 0xFFFFFFFF]), chance.randrange(200))
        return (fixed + chance.randbytes(12))[:size] + inner

    messages = [path.read_bytes() for path in sorted(SAMPLES.glob("*.message"))]

    def enciphered(exchange=32, flags=1, version=0x11, size=64, length=None):
        head = chance.randbytes(16) + bytes([8, version, exchange, flags]) + chance.randbytes(4)
        return head + struct.pack(">I", 28 + size if length is None else length) + chance.randbytes(size)

    def datagrams():
        """UDP data as it comes to ports 500 and 4500, with source and destination port."""
        for message in messages:
            yield 500, 500, message
            yield 61022, 500, message
            yield 500, 61022, message
            yield 4500, 500, message
            yield 4500, 4500, bytes(4) + message
            yield 61022, 4500, bytes(4) + message
            yield 4500, 61022, bytes(4) + message
            yield 500, 4500, bytes(4) + message
        for exchange in [2, 5, 32, 34]:
            yield 500, 500, enciphered(exchange)
            yield 4500, 4500, bytes(4) + enciphered(exchange)
        for flags in [0, 2, 3, 255]:
            yield 500, 500, enciphered(flags=flags)
        yield 500, 500, enciphered(version=0x10)
        yield 500, 500, enciphered(version=0x20)
        yield 500, 500, enciphered(length=5)
        yield 500, 500, enciphered(length=1000)
        yield 500, 500, messages[0] + b"\x00"
        for size in [0, 1, 27]:
            yield 500, 500, messages[0][:size]
        for ports in [(4500, 4500), (61022, 4500), (4500, 61022), (500, 4500)]:
            yield *ports, b"\xff"
            yield *ports, esp()
        for data in [b"", b"\x00", b"\xff\xff", bytes(3), bytes(4), b"\x00\x00\x00\x01", b"\xff" * 4, esp()[:7], esp()[:8]]:
            yield 4500, 4500, data
        for ports in [(53, 53), (40000, 40001), (501, 499), (4501, 5004), (500, 53), (53, 4500)]:
            yield *ports, esp()

    def carried():
        for sport, dport, data in datagrams():
            yield UDP(sport=sport, dport=dport) / Raw(data)
        for wrong in [0, 7, 200]:
            yield UDP(sport=500, dport=500, len=wrong) / Raw(messages[0])
        yield UDP(sport=4500, dport=4500, len=60) / Raw(esp(100))
        for size in [0, 3, 7]:
            yield 17, chance.randbytes(size)
        for size in [0, 7, 8, 9, 60]:
            yield 50, esp(60)[:size]
        for size in [0, 11, 12]:
            yield 51, ah()[:size]
        for inner in [b"", esp()]:
            yield 51, ah(inner=inner)
        yield 51, ah(length_field=255)
        yield TCP(sport=500, dport=4500)
        yield ICMP()
        yield GRE() / IP(src="10.0.0.1", dst="10.0.0.2", proto=50) / Raw(esp())
        yield IP(src="10.0.0.1", dst="10.0.0.2", proto=50) / Raw(esp())
        for protocol in [0, 49, 52, 89, 132, 255]:
            yield protocol, chance.randbytes(24)

    def packet(body, **fields):
        if isinstance(body, tuple):
            return ip(proto=body[0], **fields) / Raw(body[1])
        return ip(**fields) / body

    def packets():
        for body in carried():
            yield packet(body)
            yield packet(body, options=[IPOption(b"\x94\x04\x00\x00")])
            yield packet(body, options=[IPOption(b"\x01" * 40)])
            yield packet(body, flags="DF")
            yield packet(body, flags="MF")
            yield packet(body, frag=chance.randrange(1, 8192))

    def wrong():
        for fields in [{"version": 6}, {"version": 0}, {"ihl": 4}, {"ihl": 0}, {"ihl": 15}, {"len": 0}, {"len": 19}, {"len": 20}, {"len": 1400}]:
            yield packet((50, esp()), **fields)
            yield packet(UDP(sport=4500, dport=4500) / Raw(esp()), **fields)

    def linked(inner):
        yield ether() / inner
        yield ether() / Dot1Q(vlan=7) / inner
        yield ether() / Dot1AD(vlan=7) / Dot1Q(vlan=8) / inner
        yield ether() / Dot1Q(vlan=7) / Dot1Q(vlan=8) / inner
        yield bytes(ether() / inner) + bytes(18)

    def others():
        inner = packet((50, esp()))
        yield ether() / Dot1Q(vlan=1) / Dot1Q(vlan=2) / Dot1Q(vlan=3) / inner
        yield ether() / PPPoE(sessionid=1) / PPP(proto=0x21) / inner
        yield Dot3(src=source, dst=destination) / LLC() / SNAP() / inner
        yield ether(type=0x9100) / Raw(b"\x00\x05\x08\x00" + bytes(inner))
        yield ether() / ARP(psrc="192.0.2.1", pdst="192.0.2.2")
        yield ether() / Dot1Q(vlan=7) / ARP(psrc="192.0.2.1", pdst="192.0.2.2")
        yield ether(type=0x88CC) / Raw(bytes(46))
        for port in [500, 4500]:
            yield ether() / IPv6(src="2001:db8::1", dst="2001:db8::2") / UDP(sport=port, dport=port) / Raw(messages[0])

    for inner in [*packets(), *wrong()]:
        for frame in linked(inner):
            yield bytes(frame)
    for frame in others():
        yield bytes(frame)


def make(folder):
    from scapy.utils import RawPcapWriter

    chance = random.Random(SEED)
    kinds = list(frames())
    # How a file is written, and of which frames: for each how many bytes are kept, and how many it says there were.
    files = {
        "kinds": ("<", [(frame, len(frame), len(frame)) for frame in kinds]),
        "big-endian": (">", [(frame, len(frame), len(frame)) for frame in kinds]),
        "snap-length": ("<", [(frame, min(len(frame), 70), len(frame)) for frame in kinds]),
        "ended": ("<", [(frame, cut, cut) for frame in kinds for cut in [chance.randrange(1, len(frame) + 1)]]),
    }
    for name, (order, records) in files.items():
        writer = RawPcapWriter(f"{folder}/scapy-{name}.pcap", linktype=1, endianness=order, snaplen=65535)
        writer.write_header(None)
        for number, (frame, kept, said) in enumerate(records):
            stamp = 1772442000 * 1000000 + number * 1009
            writer._write_packet(frame[:kept], sec=stamp // 1000000, usec=stamp % 1000000, caplen=kept, wirelen=said)
        writer.close()


# ---- What is sent while tcpdump records

SIOCSIFFLAGS, SIOCSIFMTU = 0x8914, 0x8922
UP_AND_RUNNING = 0x1 | 0x40
ETHERNET_MTU = 1500


def up():
    import fcntl

    with socket.socket() as any_socket:
        fcntl.ioctl(any_socket, SIOCSIFMTU, struct.pack("16si12x", b"lo", ETHERNET_MTU))
        fcntl.ioctl(any_socket, SIOCSIFFLAGS, struct.pack("16sh14x", b"lo", UP_AND_RUNNING))


def send():
    """The frames as they are, and datagrams that the system itself puts into packets, one of them in fragments."""
    with socket.socket(socket.AF_PACKET, socket.SOCK_RAW) as link:
        link.bind(("lo", 0))
        for frame in frames():
            link.send(frame)
    with socket.socket(socket.AF_INET, socket.SOCK_DGRAM) as datagrams:
        datagrams.bind(("127.0.0.1", 4500))
        for size in [1, 100, 1472, 1473, 4000]:
            datagrams.sendto(b"\xff" * size, ("127.0.0.1", 4500))
            datagrams.sendto(b"\xff" * size, ("127.0.0.1", 500))


# ---- What tshark says of a record, and what the listing should say then

FIELDS = (
    "frame.number frame.file_off frame.time_epoch frame.cap_len frame.len frame.protocols eth.type ip.src ip.dst ip.proto"
    " ip.flags.mf ip.frag_offset ah.spi ah.sequence esp.spi esp.sequence udp.srcport udp.dstport udp.length"
    " udpencap.nat_keepalive isakmp.exchangetype isakmp.flags isakmp.messageid isakmp.typepayload isakmp.payloadlength _ws.expert.message"
).split()
# Each record by itself: no reassembly, and no total length taken from elsewhere.
PREFERENCES = ["frame.show_file_off:TRUE", "ip.defragment:FALSE", "ip.tso_support:FALSE"]

LINK = re.compile(r"eth((?::ethertype:(?:vlan|ieee8021ad)){0,2}):ethertype:ip\b")
# What stands behind UDP where tshark goes by the same port as we do.
BEHIND_UDP = {"500": ("", ":data", ":isakmp"), "4500": ("", ":udpencap", ":udpencap:esp", ":udpencap:isakmp")}
ANY_VERDICT = r"(accepted \d+|refused \d+)"
ANY_REFUSAL = r"refused \d+"
NOT_READ = rf"({ANY_REFUSAL}|enciphered exchange .*)"
OF_PORT = {"500": rf"({NOT_READ}|exchange .*)", "4500": rf"(keepalive|ESP .*|{NOT_READ}|exchange .*)"}

DEEPER = "tshark goes on behind a third VLAN tag, a tag 9100, PPPoE or LLC, and finds IPv4 there; ours is not IPv4"
VERSION_FIRST = "tshark looks at the first byte of an IP header before it looks for 20 bytes; ours is cut short"
LOWER_PORT = "tshark asks the protocols of both ports, the lower one's first; ours goes by the destination port if that is 500 or 4500"
NO_MESSAGE = "tshark takes no message with under 28 bytes or such a length field; ours is refused, or enciphered by its flags byte"


def tshark(file):
    command = ["tshark", "-r", str(file), "-T", "fields"]
    for preference in PREFERENCES:
        command += ["-o", preference]
    for field in FIELDS:
        command += ["-e", field]
    read = subprocess.run(command, stdout=subprocess.PIPE, stderr=subprocess.DEVNULL, check=True, text=True)
    return [dict(zip(FIELDS, line.split("\t"))) for line in read.stdout.splitlines()]


def outermost(record, field):
    return record[field].split(",")[0]


def expected(record):
    """The line as a pattern, and the reason where tshark goes by other rules."""
    seconds, fraction = record["frame.time_epoch"].split(".")
    what, reason = what_of(record)
    start = f"{record['frame.number']} at {record['frame.file_off']} {seconds}.{fraction[:6]} "
    return re.escape(start) + what, reason


def what_of(record):
    layers, expert = record["frame.protocols"], record["_ws.expert.message"]
    if record["frame.cap_len"] != record["frame.len"]:
        return "cut short", None
    if not re.search(r":ip\b", layers):
        cut = "Malformed Packet" in expert and re.fullmatch(r"eth(:ethertype:(vlan|ieee8021ad))*", layers)
        return "cut short" if cut else "not IPv4", None
    link = LINK.match(layers)
    if not link or "0x9100" in record["eth.type"]:
        return "not IPv4", DEEPER
    if "Bogus IP" in expert:
        short = int(record["frame.cap_len"]) < 14 + 4 * link[1].count(":ethertype") + 20
        return ("cut short", VERSION_FIRST) if short else ("not IPv4", None)
    if "IPv4 total length exceeds" in expert or not record["ip.dst"]:
        return "cut short", None
    if outermost(record, "ip.proto") == "17" and not fragment(record) and ("Bad length value" in expert or not record["udp.length"]):
        return "cut short", None
    what, reason = carried_by_ip(record)
    return re.escape(f"{outermost(record, 'ip.src')} > {outermost(record, 'ip.dst')} ") + what, reason


def fragment(record):
    return outermost(record, "ip.flags.mf") == "1" or outermost(record, "ip.frag_offset") != "0"


def carried_by_ip(record):
    protocol = outermost(record, "ip.proto")
    if fragment(record):
        return "fragment", None
    if protocol == "51":
        return packet(record, "AH", "ah"), None
    if protocol == "50":
        return packet(record, "ESP", "esp"), None
    if protocol == "17":
        return datagram(record)
    return f"other protocol {protocol}", None


def packet(record, name, layer):
    if not record[f"{layer}.sequence"]:
        return f"{name} refused 16"
    spi = outermost(record, f"{layer}.spi")[2:]
    return f"{name} {spi} number {outermost(record, layer + '.sequence')} {ANY_VERDICT}"


def datagram(record):
    source, destination = outermost(record, "udp.srcport"), outermost(record, "udp.dstport")
    port = destination if destination in OF_PORT else source
    behind = record["frame.protocols"].partition(":udp")[2]
    if port not in OF_PORT:
        return f"other ports {source} > {destination}", None
    if behind not in BEHIND_UDP[port]:
        return OF_PORT[port], LOWER_PORT
    if behind.endswith(":isakmp"):
        return message(record), None
    if port == "500":
        return NOT_READ, NO_MESSAGE
    if behind.endswith(":esp"):
        return packet(record, "ESP", "esp"), None
    if record["udpencap.nat_keepalive"]:
        return "keepalive", None
    # The marker alone, behind which no message is left, or fewer than four bytes.
    marker = behind and "Malformed Packet" not in record["_ws.expert.message"]
    return f"refused {30 if marker else 16}", None


def message(record):
    exchange = record["isakmp.exchangetype"]
    if record["isakmp.flags"] == "0x01":
        return f"enciphered exchange {exchange} id {record['isakmp.messageid'][2:]}"
    # tshark lists the proposals (2) and transforms (3) of an SA payload too; those lie inside it.
    pairs = zip(record["isakmp.typepayload"].split(","), record["isakmp.payloadlength"].split(","))
    payloads = [(kind, int(length)) for kind, length in pairs if kind not in ("", "2", "3")]
    starts = itertools.accumulate((length for _, length in payloads), initial=28)
    places = "".join(f" {kind}@{start}+{length}" for (kind, length), start in zip(payloads, starts))
    return f"({re.escape(f'exchange {exchange} payloads {len(payloads)}{places}')}|{ANY_REFUSAL})"


# ---- The comparison

KINDS = (
    "cut short",
    "not IPv4",
    "fragment",
    "other protocol",
    "other ports",
    "keepalive",
    "enciphered",
    "payloads",
    "AH",
    "ESP",
    "> [^ ]+ refused",
)


def compare(folder, command):
    records = failed = 0
    kinds, reasons = collections.Counter(), collections.Counter()
    for file in sorted(pathlib.Path(folder).glob("*.pcap")):
        compared = unlike = 0
        for line, record in itertools.zip_longest(listed(file, command), tshark(file)):
            pattern, reason = expected(record) if record else ("no record", None)
            compared += 1
            kinds.update(kind for kind in KINDS if re.search(rf"\b{kind}\b" if kind[0].isalpha() else kind, line or ""))
            reasons.update([reason] if reason else [])
            if not re.fullmatch(pattern, line or "no line"):
                unlike += 1
                print(f"{file.name}: listed '{line}', and tshark has '{pattern}': {record}")
        print(f"{file.name}: {compared} records compared, {unlike} differ")
        records, failed = records + compared, failed + unlike
    print("listed as: " + ", ".join(f"{kind.removeprefix('> [^ ]+ ')} {kinds[kind]}" for kind in KINDS))
    for reason, count in reasons.items():
        print(f"{count} times another rule: {reason}")
    missing = [kind for kind in KINDS if not kinds[kind]]
    if missing:
        print(f"never listed: {', '.join(missing)}")
    print(f"{records - failed} passed, {failed + len(missing)} failed")
    return failed + len(missing) > 0


def listed(file, command):
    with open(file, "rb") as capture:
        return subprocess.run(command, stdin=capture, stdout=subprocess.PIPE, stderr=subprocess.DEVNULL, text=True).stdout.splitlines()


def main(words):
    match words:
        case ["make", folder]:
            make(folder)
        case ["up"]:
            up()
        case ["send"]:
            send()
        case ["compare", folder, *command] if command:
            return compare(folder, command)
        case _:
            print(__doc__, file=sys.stderr)
            return 2
    return 0


sys.exit(main(sys.argv[1:]))
