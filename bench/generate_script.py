#!/usr/bin/env python3
"""Writes a script of alternating sets and gets over many locations: generate_script.py [REQUESTS [LOCATIONS]]"""
import sys


def main():
    requests = int(sys.argv[1]) if len(sys.argv) > 1 else 200_000
    locations = int(sys.argv[2]) if len(sys.argv) > 2 else 100
    write = sys.stdout.write
    write('{"rules":"{\\"rules\\":{\\"board\\":{\\".read\\":true,\\".write\\":true}}}"}\n')
    write('{"do":"open","now":1,"s":1}\n')
    for i in range(requests):
        path = '/board/k%d' % (i // 2 * 7 % locations)
        if i % 2 == 0:
            write('{"do":"set","now":%d,"path":"%s","s":1,"value":%d}\n' % (i + 2, path, i))
        else:
            write('{"do":"get","now":%d,"path":"%s","s":1}\n' % (i + 2, path))


main()
