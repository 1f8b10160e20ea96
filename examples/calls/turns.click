FromDevice(a) -> q :: Queue -> r :: RoundRobinSched -> ToDevice(b); FromDevice(c) -> Queue -> [1] r;
