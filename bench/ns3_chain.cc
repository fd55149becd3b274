// The chain of bench/scenarios.py for ns-3: 65 nodes in a row, 10 flows of datagrams of 500 bytes, one a millisecond each, every
// other one the other way, with the devices' plain queues and with checksums. bench/beside-ns3 builds and runs it.
#include <iostream>
#include <string>

#include "ns3/applications-module.h"
#include "ns3/core-module.h"
#include "ns3/internet-module.h"
#include "ns3/network-module.h"
#include "ns3/point-to-point-module.h"
#include "ns3/traffic-control-module.h"

using namespace ns3;

int main(int words, char **word) {
  const unsigned nodes = 65, flows = 10, count = words > 1 ? std::stoul(word[1]) : 2000;
  GlobalValue::Bind("ChecksumEnabled", BooleanValue(true));
  NodeContainer chain(nodes);
  InternetStackHelper().Install(chain);
  PointToPointHelper link;
  link.SetDeviceAttribute("DataRate", StringValue("100Mbps"));
  link.SetChannelAttribute("Delay", StringValue("1ms"));
  Ipv4AddressHelper net("10.0.0.0", "255.255.255.0");
  Ipv4Address first, last;
  for (unsigned at = 0; at + 1 < nodes; ++at, net.NewNetwork()) {
    NetDeviceContainer devices = link.Install(chain.Get(at), chain.Get(at + 1));
    Ipv4InterfaceContainer ends = net.Assign(devices);
    TrafficControlHelper().Uninstall(devices);
    if (at == 0) first = ends.GetAddress(0);
    last = ends.GetAddress(1);
  }
  Ipv4GlobalRoutingHelper::PopulateRoutingTables();
  for (unsigned flow = 0; flow < flows; ++flow) {
    const bool up = flow % 2 == 0;
    UdpServerHelper(9 + flow).Install(chain.Get(up ? nodes - 1 : 0));
    UdpClientHelper client(up ? last : first, 9 + flow);
    client.SetAttribute("MaxPackets", UintegerValue(count));
    client.SetAttribute("Interval", TimeValue(MilliSeconds(1)));
    client.SetAttribute("PacketSize", UintegerValue(500));
    client.Install(chain.Get(up ? 0 : nodes - 1)).Start(MicroSeconds(100 * flow));
  }
  Simulator::Stop(Seconds(100));
  Simulator::Run();
  std::cout << "events " << Simulator::GetEventCount() << "\n";
}
