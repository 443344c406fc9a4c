# rules.cpp: the greater of the two heights is tested, not their sum.
s/if (past\[k\] + future\[k\] > MAX_HEIGHTS)/if (std::max(past[k], future[k]) > MAX_HEIGHTS)/
