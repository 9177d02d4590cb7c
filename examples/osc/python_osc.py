"""Answers the standby of device 3 with python-osc, as docs/DEVICES.md asks for it. The other duties are left to you.

    python3 examples/osc/python_osc.py

Not tried: Debian has no package of it. SimpleUDPClient sends from another port, the socket that listens from its own.
"""
from pythonosc.dispatcher import Dispatcher
from pythonosc.osc_message_builder import OscMessageBuilder
from pythonosc.osc_server import BlockingOSCUDPServer

def standby(source, address, number, device, cue, data):
    if device == 3:
        answer = OscMessageBuilder("/device/3/standing_by")
        answer.add_arg(number, "i")
        server.socket.sendto(answer.build().dgram, source)

dispatcher = Dispatcher()
dispatcher.map("/msc/standby", standby, needs_reply_address=True)
server = BlockingOSCUDPServer(("0.0.0.0", 9001), dispatcher)
server.serve_forever()
