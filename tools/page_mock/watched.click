// The configuration that tools/page.py checks: a source that a driver keeps running, and two
// branches, of which the right one is never emptied. It has bytes of UTF-8: ä €
elementclass Branch { $capacity | input -> c :: Counter -> q :: Queue($capacity) -> output; }
InfiniteSource("<b>ab</b>", -1, 1) -> c :: Counter -> s :: Switch(0) -> left :: Branch(64) -> Unqueue -> Discard;
s [1] -> right :: Branch(20) -> Idle;
Idle -> rt :: StaticIPLookup(10.0.0.0/8 0) -> Discard;
