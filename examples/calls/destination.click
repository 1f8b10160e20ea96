FromDevice(a) -> GetIPAddress(0) -> Queue -> ToDevice(b);
