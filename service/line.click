// A router between two UDP links, a and b: packets of a leave at b, through a queue, and are
// counted. Copy it to /etc/click/line.click, and line.conf next to it.
FromDevice(a) -> c :: Counter -> q :: Queue(1000) -> ToDevice(b);
