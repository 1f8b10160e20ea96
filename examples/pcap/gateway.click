// IPv4 packets for two networks go on with a time to live that is one less, in new Ethernet headers; all others are dropped.
FromDevice(eth0) -> Strip(14) -> CheckIPHeader -> GetIPAddress(16) -> rt :: StaticIPLookup(10.0.0.0/8 0, 192.168.7.0/24 0);
rt -> DecIPTTL -> EtherEncap(0x0800, 02:00:00:00:00:01, 02:00:00:00:00:02) -> Queue(64) -> ToDevice(eth1);
