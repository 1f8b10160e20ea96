elementclass P { $n | input -> q :: Queue($n) -> u :: Unqueue -> output; } elementclass R { $m | input -> p :: P($m) -> output; } Idle -> x :: R(5) -> Discard;
