// No output of q1 is connected, so this configuration is refused.
FromDevice(eth0) -> q1 :: Queue(1000);
