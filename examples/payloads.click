Idle -> rt :: StaticIPLookup(0.0.0.0/0 0, 10.0.0.0/8 1, 10.1.0.0/16 10.9.9.9 2); rt -> Discard; rt [1] -> Discard; rt [2] -> Discard;
