# reference.cpp: work numbers past 16,384 are cleared too.
s/work\.first(MIN_WORK)/work/
