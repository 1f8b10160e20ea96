Idle -> d;
