// The configuration that the page installs.
InfiniteSource(ab, -1, 1) -> c :: Counter -> fresh :: Counter -> Discard;
