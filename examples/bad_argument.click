Idle -> Queue(0) -> Discard;
