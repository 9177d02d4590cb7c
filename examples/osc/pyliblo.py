"""Answers the standby of device 3 with pyliblo, as docs/DEVICES.md asks for it. The other duties are left to you.

    python3 examples/osc/pyliblo.py

Tried with Debian's python3-liblo 0.10. liblo.send sends from another port, Server.send from the one that listens.
"""
import liblo

server = liblo.Server(9001)

def standby(path, values, types, source):
    number, device, cue, data = values
    if device == 3:
        server.send(source, "/device/3/standing_by", ("i", number))

server.add_method("/msc/standby", "iisb", standby)
while True:
    server.recv()
