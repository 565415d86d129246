#!/usr/bin/env python3
"""Writes the frames that nodes took as a capture, which Wireshark and tshark read: to_pcap.py < NODES > CAPTURE

NODES is what `vkernel join` reads. Each frame is a datagram from 127.0.0.1 to the station that took it, with 24,000 and the station as ports.
"""
import struct
import sys


def datagram(data, source, host):
    udp = struct.pack(">HHHH", 24000 + source % 1000, 24000 + host % 1000, 8 + len(data), 0) + data
    address = bytes([127, 0, 0, 1])
    return struct.pack(">BBHHHBBH", 0x45, 0, 20 + len(udp), 0, 0, 64, 17, 0) + address + address + udp


def main():
    out, host, time = sys.stdout.buffer, 0, 0
    # (101: each packet begins with the header of IP)
    out.write(struct.pack("<IHHiIII", 0xA1B2C3D4, 2, 4, 0, 0, 65535, 101))
    for line in sys.stdin:
        kind, *rest = line.split()
        if kind == "station":
            host = int(rest[0])
        elif kind == "frame":
            data = bytes.fromhex(rest[0])
            packet = datagram(data, int.from_bytes(data[2:4], "big"), host)
            time += 1
            out.write(struct.pack("<IIII", time, 0, len(packet), len(packet)) + packet)


if __name__ == "__main__":
    main()
