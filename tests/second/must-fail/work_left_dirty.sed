# reference.cpp: the last of the 16,384 work numbers is not cleared.
s/work\.first(MIN_WORK)/work.first(MIN_WORK - 1)/
