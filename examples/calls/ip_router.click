// The IP router of the Click paper for two networks, with the thirty classes. Packets that an ICMP
// message would answer (a redirect, an expired or a long packet) are counted. Each network has one
// next hop, whose Ethernet address is known. There is no ARP, no IP option and no fragment.
elementclass In { $colour |
    input -> k :: Classifier(12/0800, -) -> Paint($colour) -> Strip(14) -> CheckIPHeader(10.255.255.255 192.168.1.255) -> GetIPAddress(16) -> output;
    k [1] -> other :: Counter -> Discard;
}
elementclass Out { $colour, $own, $next |
    input -> p :: PaintTee($colour) -> d :: DecIPTTL -> l :: CheckLength(1500) -> EtherEncap(0x0800, $own, $next) -> Queue(64) -> output;
    p [1] -> redirect :: Counter -> Discard;
    d [1] -> expired :: Counter -> Discard;
    l [1] -> long :: Counter -> Discard;
}
FromDevice(eth0) -> in0 :: In(1) -> rt :: StaticIPLookup(10.0.0.1/32 0, 192.168.1.1/32 0, 10.0.0.0/8 1, 192.168.1.0/24 2);
FromDevice(eth1) -> in1 :: In(2) -> rt;
rt -> local :: Counter -> Discard;
rt [1] -> out0 :: Out(1, 2:0:0:0:0:1, 2:0:0:0:0:a) -> ToDevice(eth0);
rt [2] -> out1 :: Out(2, 2:0:0:1:0:1, 2:0:0:1:0:a) -> ToDevice(eth1);
