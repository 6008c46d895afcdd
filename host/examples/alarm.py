#!/usr/bin/env python3
"""A tool: tells the host of a fault and shows the answer.    alarm.py SOCKET [CODE]"""
import socket
import struct
import sys
import time

code = sys.argv[2] if len(sys.argv) > 2 else "E404"
payload = code.encode("ascii").ljust(4) + struct.pack("<BB", 1, 0)  # the error code; the controller is ready, the tool is not
payload += time.strftime("%Y-%m-%d:%H:%M:%S").encode("ascii")  # when
with socket.socket(socket.AF_UNIX) as host:
    host.settimeout(10)
    host.connect(sys.argv[1])
    host.sendall(struct.pack("<HH", len(payload), 5) + payload)  # a house record of kind 5
    answer = host.makefile().readline()
print(answer, end="")  # 0 done, taken by 0 2
sys.exit(not answer.startswith("0 "))
