// The firewall with longer queues. A swap takes over packets and counts.
require(gateway);
FromDevice(eth0) -> CheckIPHeader -> inside :: IPFilter(
  allow src 10.1.0.0/16 and tcp dst port 80,
  allow src 10.1.0.0/16 and icmp type echo,
  1 all);
FromDevice(eth1) -> CheckIPHeader -> outside :: IPFilter(
  allow src 10.2.0.0/16 and tcp src port 80 and tcp opt ack,
  allow src 10.2.0.0/16 and icmp type echo-reply,
  1 all);
inside -> good :: GetIPAddress(16) -> rt :: StaticIPLookup(10.1.0.0/16 0, 10.2.0.0/16 1);
outside -> good;
inside [1] -> kept_in :: Counter -> Discard;
outside [1] -> kept_out :: Counter -> Discard;
rt -> DecIPTTL -> c0 :: Counter -> q0 :: Queue(1000) -> ToDevice(eth0);
rt [1] -> DecIPTTL -> c1 :: Counter -> q1 :: Queue(1000) -> ToDevice(eth1);
