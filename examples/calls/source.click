InfiniteSource("ab", 5, 2) -> c :: Counter -> Discard;
