i :: InfiniteSource("ab", 3, 2, false) -> c :: Counter -> Discard;
