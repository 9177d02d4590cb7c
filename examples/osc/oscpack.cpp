/* Answers the standby of device 3 with oscpack, as docs/DEVICES.md asks for it. The other duties are left to you.
 *
 *     c++ examples/osc/oscpack.cpp -loscpack -o /tmp/device
 *
 * Tried with Debian's liboscpack-dev 1.1.0. UdpTransmitSocket sends from another port. A socket that listens sends from
 * its own, and its listener gets the bytes of the datagram: hand them to cue_hear. */
#include <oscpack/ip/PacketListener.h>
#include <oscpack/ip/UdpSocket.h>
#include <oscpack/osc/OscOutboundPacketStream.h>
#include <oscpack/osc/OscReceivedElements.h>
#include <cstring>

struct Device : PacketListener {
    UdpSocket *socket;
    void ProcessPacket(const char *data, int size, const IpEndpointName &from) override
    {
        osc::ReceivedPacket packet(data, size);
        if (!packet.IsMessage() || std::strcmp(data, "/msc/standby") != 0)
            return;
        osc::int32 number, device;
        osc::ReceivedMessage(packet).ArgumentStream() >> number >> device;
        char bytes[64];
        osc::OutboundPacketStream answer(bytes, sizeof bytes);
        answer << osc::BeginMessage("/device/3/standing_by") << number << osc::EndMessage;
        if (device == 3)
            socket->SendTo(from, answer.Data(), answer.Size());
    }
};

int main()
{
    Device device;
    UdpListeningReceiveSocket socket(IpEndpointName(IpEndpointName::ANY_ADDRESS, 9001), &device);
    device.socket = &socket;
    socket.Run();
}
