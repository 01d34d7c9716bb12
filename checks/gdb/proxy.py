#!/usr/bin/env python3
"""Stands between gdb and a stub, and spoils one packet on the way.

usage: checks/gdb/proxy.py HOW N COMMAND ..

HOW, of the Nth packet that the stub writes: sum (its checksum is wrong), lose (it is lost), junk (other bytes are before
it), cut (its end is cut off). Of the Nth that gdb writes: back (its checksum is wrong), nack (a minus is put before it).
"""
import os
import re
import select
import subprocess
import sys

PACKET = re.compile(rb"\$[^#]*#..", re.S)


def with_wrong_sum(packet):
    return packet[:-2] + (b"01" if packet[-2:] == b"00" else b"00")


SPOILS = {
    "sum": with_wrong_sum,
    "lose": lambda packet: b"",
    "junk": lambda packet: b"hello\n" + packet,
    "cut": lambda packet: packet[:-3],
    "back": with_wrong_sum,
    "nack": lambda packet: b"-" + packet,
}
FROM_GDB = ("back", "nack")


def write_all(to, text):
    while text:
        text = text[os.write(to, text) :]


def main(how, number, *command):
    stub = subprocess.Popen(command, stdin=subprocess.PIPE, stdout=subprocess.PIPE)
    ways = {0: stub.stdin.fileno(), stub.stdout.fileno(): 1}
    seen, left = {it: 0 for it in ways}, {it: b"" for it in ways}
    while True:
        for way in select.select(list(ways), [], [])[0]:
            some = os.read(way, 65536)
            if not some:
                return
            text = left[way] + some
            while text:
                packet = PACKET.match(text)
                if text[:1] == b"$" and not packet:
                    break
                one = packet[0] if packet else text[:1]
                text = text[len(one) :]
                if packet:
                    seen[way] += 1
                    if seen[way] == int(number) and (way == 0) == (how in FROM_GDB):
                        one = SPOILS[how](one)
                write_all(ways[way], one)
            left[way] = text


if __name__ == "__main__":
    if sys.argv[1:] == ["--help"]:
        print(__doc__, end="")
    else:
        main(*sys.argv[1:])
