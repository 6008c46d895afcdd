#!/usr/bin/env python3
"""A tool: tells the host of one tightening and shows the answer.    tool.py SOCKET"""
import socket
import struct
import sys
import time

now = time.strftime("%Y-%m-%d:%H:%M:%S").encode("ascii")
payload = struct.pack(
    "<25sBHHHBBB4I4I19s19sB",
    b"BODY 000001".ljust(25),  # the identifier; spaces for the one in force
    1, 7, 4, 1,                # job, parameter set, batch size, batch counter
    1, 1, 1,                   # the tightening, its torque and its angle are OK
    2250, 2750, 2500, 2493,    # torque: least, most, target, reached, in hundredths of Nm
    70, 110, 90, 88,           # angle: the same, in degrees; least, most or target 4294967295: never set
    now, now, 0)               # when; when the parameter set was changed; batch status
with socket.socket(socket.AF_UNIX) as host:
    host.settimeout(10)
    host.connect(sys.argv[1])
    host.sendall(struct.pack("<HH", len(payload), 1) + payload)  # a house record of kind 1
    answer = host.makefile().readline()
print(answer, end="")  # 0 done, taken by 0 2, number 17
sys.exit(not answer.startswith("0 "))
