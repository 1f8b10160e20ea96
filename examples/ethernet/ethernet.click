// The IP router of the Click paper (ACM TOCS 18(3), August 2000, figure 8) between two Ethernets.
//
//     eth0: 10.1.0.0/16, where the router is 10.1.0.1, with the Ethernet address 2:0:0:0:0:1
//     eth1: 10.2.0.0/16, where the router is 10.2.0.1, with the Ethernet address 2:0:0:0:0:2
//
// Behind the host 10.2.0.2 is a third network, 10.3.0.0/16. The host 10.2.0.99 is out of service.
// README.md explains the configuration, and lists what the figure has and this router lacks.

// Makes ARPResponder, ARPQuerier, ICMPError and ICMPPingResponder visible.
require(gateway);

// An Ethernet. $digits is $ether in hexadecimal digits. A datagram that arrives in a frame to the
// router leaves at the output, without its Ethernet header and with the paint $colour. A datagram
// at the input is sent to its destination annotation.
elementclass Ethernet { $device, $ip, $ether, $digits, $colour |
  arp :: ARPQuerier($ip, $ether);
  out :: Queue(200) -> ToDevice($device);

  // ARP requests, ARP replies, datagrams to the router alone, and everything else.
  FromDevice($device) -> kind :: Classifier(12/0806 20/0001, 12/0806 20/0002,
                                            12/0800 0/$digits, -);

  // The responder answers requests for the router's address. The querier learns from both kinds.
  kind [0] -> both :: Tee(2) -> ARPResponder($ip $ether) -> out;
  both [1] -> [1] arp;
  kind [1] -> [1] arp;
  kind [2] -> Paint($colour) -> Strip(14) -> output;

  // No error may be reported about a datagram in a broadcast or multicast frame (RFC 1122, section
  // 3.2.2). A frame to another station is not the router's business.
  kind [3] -> other :: Counter -> Discard;

  // A datagram to a neighbour whose Ethernet address is not known waits in the querier. Meanwhile
  // a query leaves.
  input -> datagrams :: Counter -> arp;
  arp -> resolved :: Counter -> out;
  arp [1] -> queries :: Counter -> out;
}

// Datagrams to the router itself. It answers pings. It has no program that listens, so it reports
// for UDP (17, or hexadecimal 11) that the port is unreachable, and for other protocols that the
// protocol is (RFC 1122, section 3.2.2.1). Other ICMP messages are dropped.
elementclass Own { $ip |
  input -> ping :: ICMPPingResponder -> output;
  ping [1] -> protocol :: Classifier(9/01, 9/11, -) -> Discard;
  protocol [1] -> ICMPError($ip, unreachable, 3) -> output;
  protocol [2] -> ICMPError($ip, unreachable, 2) -> output;
}

// Datagrams that leave by the Ethernet of the paint $colour. They leave at output 0, with their
// time to live decremented. Reports of errors leave at output 1. $net is the network from which
// the datagrams came, in hexadecimal digits.
elementclass Forward { $ip, $net, $colour |
  input -> ttl :: DecIPTTL -> fits :: CheckLength(1500) -> back :: PaintTee($colour) -> output;

  ttl [1] -> ICMPError($ip, timeexceeded) -> [1] output;

  // A datagram of more than 1,500 bytes is not fragmented. Its sender has to send shorter ones.
  fits [1] -> ICMPError($ip, unreachable, 4, 1500) -> [1] output;

  // A datagram that leaves by the Ethernet from which it came: its sender can use the next hop
  // directly. The report may be made only if the datagram is forwarded, if the sender is in that
  // network, and if the header has no source route (RFC 1812, section 5.2.7.2). Here the header may
  // have no options at all. The PaintTee stands last, so that no other report is made too.
  back [1] -> Classifier(0/45 12/$net) -> ICMPError($ip, redirect, 1) -> [1] output;
}

// The datagrams from one Ethernet. They leave at output 0 for eth0 and at output 1 for eth1. $ip is
// the router's address in that Ethernet, and the source of reports. They leave there, as RFC 1812
// (section 4.3.2.4) requires of this source, unless the sender's address belongs to the other side.
elementclass Route { $ip, $net |
  // The header has to be valid. Its source must not be a broadcast address or the router.
  input -> CheckIPHeader(10.1.0.0 10.1.255.255 10.2.0.0 10.2.255.255 10.1.0.1 10.2.0.1)
    -> martian :: Classifier(12/00, 12/7f, 12/e0%e0, -);

  // No host has a source whose first byte is 0, 127, or 224 to 255 (RFC 1812, section 5.3.7).
  martian [0] -> Discard;
  martian [1] -> Discard;
  martian [2] -> Discard;
  martian [3] -> GetIPAddress(16) -> rt :: StaticIPLookup(
      10.1.0.1 0, 10.2.0.1 0,              // the router
      10.1.0.0/16 1, 10.2.0.0/16 2,        // its networks
      10.3.0.0/16 10.2.0.2 2,              // a network behind a neighbour
      10.2.0.99 3,                         // a host that is out of service
      0.0.0.0/0 4,                         // everything else: there is no route
      10.1.0.0 5, 10.1.255.255 5,          // all hosts of a network
      10.2.0.0 5, 10.2.255.255 5);

  // What the router says itself needs no further hop.
  own :: StaticIPLookup(10.1.0.0/16 0, 10.2.0.0/16 1, 10.3.0.0/16 10.2.0.2 1);
  own [0] -> [0] output;
  own [1] -> [1] output;

  rt [0] -> Own($ip) -> own;
  rt [1] -> to_eth0 :: Forward($ip, $net, 1) -> [0] output;
  rt [2] -> to_eth1 :: Forward($ip, $net, 2) -> [1] output;
  to_eth0 [1] -> own;
  to_eth1 [1] -> own;
  rt [3] -> ICMPError($ip, unreachable, 1) -> own;
  rt [4] -> ICMPError($ip, unreachable, 0) -> own;
  rt [5] -> Discard;
}

left :: Ethernet(eth0, 10.1.0.1, 2:0:0:0:0:1, 020000000001, 1);
right :: Ethernet(eth1, 10.2.0.1, 2:0:0:0:0:2, 020000000002, 2);

left -> from_left :: Route(10.1.0.1, 0a01) -> left;
right -> from_right :: Route(10.2.0.1, 0a02) -> left;
from_left [1] -> right;
from_right [1] -> right;
