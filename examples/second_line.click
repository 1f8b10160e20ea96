a :: Idle;
// again
 a :: Counter;
