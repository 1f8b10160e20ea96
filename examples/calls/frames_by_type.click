// A first configuration: incoming frames are sorted by their Ethernet type, counted and dropped.
FromDevice(eth0) -> k :: Classifier(12/0806, 12/0800, -);
k -> arp :: Counter -> Discard;
k [1] -> ip :: Counter -> Discard;
k [2] -> other :: Counter -> Discard;
