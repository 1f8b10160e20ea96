// Packets that ask for expedited forwarding (RFC 3246: a DS field of 46, the byte b8 without ECN)
// wait in their own queue, which a scheduler asks first.
FromDevice(eth0) -> k :: Classifier(15/b8%fc, -);
k -> urgent :: Queue(2) -> s :: PrioSched -> ToDevice(eth1);
k [1] -> bulk :: Queue(3) -> [1] s;
